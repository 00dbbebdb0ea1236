//! The built program `gauge` beside the expected print: levels in decimal, numbers outside the
//! range, and what is no number.

use std::fs::File;
use std::path::Path;
use std::process::Stdio;
use std::time::Duration;

use govorun_tests::agreed::{gauge, print_all};
use govorun_tests::answers::MAX_NUMBER;
use govorun_tests::gen::noise::{bytes, every_string, string};
use govorun_tests::gen::numbers::{level, outside, NO_NUMBERS};
use govorun_tests::gen::Rng;
use govorun_tests::hex;
use govorun_tests::program::{written, GAUGE, NO_NUMBER};

#[test]
fn levels_by_hand() {
    assert_eq!(gauge(b"0"), "37 2 34\n");
    assert_eq!(gauge(b"7"), "44 3 36\n");
    assert_eq!(gauge(b"-1"), "36 5 37 11 43 0 7 25 5 37\n");
    assert_eq!(gauge(b"40"), "43 2 41 12 31\n");
    assert_eq!(gauge(b"42"), "43 2 41 12 20 0 24 18 1\n");
    assert_eq!(gauge(b"1000"), "7 24 37 1 0 45 4 44 13 53 13\n");
}

#[test]
fn levels() {
    let mut rng = Rng::for_test(130);
    let ends = (9_900..=9_999).flat_map(|level| [level, -level]);
    let mut inputs: Vec<String> = (-250..=250).chain(ends).map(|n| n.to_string()).collect();
    inputs.extend((0..=9_900).step_by(100).map(|level| level.to_string()));
    inputs.extend((0..2_500).map(|_| level(&mut rng)));
    let inputs: Vec<Vec<u8>> = inputs.into_iter().map(String::into_bytes).collect();
    print_all(GAUGE, &inputs);
}

#[test]
fn zeros_in_front_count_for_nothing() {
    assert_eq!(gauge(b"007"), gauge(b"7"));
    assert_eq!(gauge(b"-00040"), gauge(b"-40"));
    assert_eq!(gauge(b"00009999"), gauge(b"9999"));
    for zero in ["-0", "00", "-00", "000000", "-0000000000"] {
        assert_eq!(gauge(zero.as_bytes()), "37 2 34\n", "{zero}");
    }
}

#[test]
fn numbers_outside_the_range() {
    for number in outside() {
        assert_eq!(gauge(number.as_bytes()), "refused 14 at 0\n", "{number}");
    }
}

#[test]
fn what_is_no_number() {
    for input in NO_NUMBERS {
        assert_eq!(gauge(input), "", "{}", hex(input));
    }
}

#[test]
fn every_byte() {
    let bytes = (0..=255).flat_map(|byte| [vec![byte], vec![b'-', byte], vec![b'1', byte]]);
    print_all(GAUGE, &bytes.collect::<Vec<_>>());
}

/// Digits, minus and what stands right beside the digits.
#[test]
fn every_short_string_that_looks_like_a_number() {
    let mut inputs = Vec::new();
    every_string(b"-019/:", 4, &mut |input| inputs.push(input.to_vec()));
    print_all(GAUGE, &inputs);
}

#[test]
fn bytes_without_sense() {
    let mut rng = Rng::for_test(131);
    let mut inputs = Vec::new();
    for _ in 0..300 {
        let length = rng.between(1, 12);
        inputs.push(bytes(&mut rng, length));
        let alphabet = rng.pick(&["0123456789", "-0123456789", "-0123456789 ", "09-+.\n"]);
        inputs.push(string(&mut rng, alphabet.as_bytes(), length));
    }
    print_all(GAUGE, &inputs);
}

/// A number of this many bytes: a beginning, digits that are all the same, and an end.
fn filled(start: &str, digit: &str, end: &str, length: usize) -> String {
    let middle = length - start.len() - end.len();
    format!("{start}{}{end}", digit.repeat(middle))
}

/// As many digits as are read, and more than those, which is no number whatever they are.
#[test]
fn numbers_of_about_the_longest_length() {
    assert_eq!(MAX_NUMBER, 4_096);
    for length in [100, 1_000, 4_095, 4_096] {
        let level = filled("-", "0", "40", length);
        assert_eq!(gauge(level.as_bytes()), gauge(b"-40"));
        assert_eq!(gauge(filled("", "0", "", length).as_bytes()), gauge(b"0"));
        for (start, digit, end) in [
            ("", "9", ""),
            ("-", "9", ""),
            ("1", "0", "5"),
            ("", "0", "10000"),
        ] {
            let number = filled(start, digit, end, length);
            assert_eq!(gauge(number.as_bytes()), "refused 14 at 0\n", "{number}");
        }
        for digit in ["0", "9"] {
            for end in ["x", "\n", "-"] {
                assert_eq!(gauge(filled("", digit, end, length).as_bytes()), "");
            }
        }
    }
    for length in [4_097, 4_098, 4_100, 8_191, 8_192, 8_193, 65_537, 100_000] {
        for start in ["", "-", "9", "x"] {
            for digit in ["0", "9", "x"] {
                assert_eq!(gauge(filled(start, digit, "", length).as_bytes()), "");
            }
        }
    }
}

#[test]
fn input_that_comes_in_pieces() {
    let wait = Duration::from_millis(2);
    let zeros = |length| filled("-", "0", "4989", length);
    for (input, piece) in [
        ("-4989".to_string(), 1),
        ("10000".to_string(), 4),
        ("12x".to_string(), 2),
        (zeros(4_096), 1_000),
        (zeros(4_096), 4_095),
        (zeros(4_097), 4_096),
        (zeros(9_000), 4_096),
    ] {
        let given = GAUGE.piped(input.as_bytes(), piece, wait);
        assert_eq!(given, (GAUGE.expected)(input.as_bytes()), "input {input}");
    }
}

#[test]
fn input_from_a_file() {
    let path = Path::new(env!("CARGO_TARGET_TMPDIR")).join("number");
    for input in ["-4989", "-10000", "4989\n", &filled("", "0", "7", 4_097)] {
        std::fs::write(&path, input).expect("a file for the number");
        let file = File::open(&path).expect("the file is there");
        let given = written(GAUGE.start(file.into()));
        assert_eq!(given, (GAUGE.expected)(input.as_bytes()), "input {input}");
    }
    let (print, complaint) = written(GAUGE.start(Stdio::null()));
    assert_eq!((&print[..], &complaint[..]), ("", NO_NUMBER));
}
