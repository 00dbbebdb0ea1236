//! Numbers in decimal, as a probe's reading may be typed, and what only looks like one.

use super::Rng;

/// A level of up to four digits, now and then with zeros before it.
pub fn level(rng: &mut Rng) -> String {
    let sign = rng.pick(&["", "-"]);
    let zeros = "0".repeat(rng.pick(&[0, 0, 0, 1, 2, 30]));
    let bound = rng.pick(&[10, 100, 1_000, 10_000, 10_000]);
    format!("{sign}{zeros}{}", rng.below(bound))
}

/// Numbers outside the range: those next to it; those whose lower bits alone, or whose last digits
/// alone, are a level.
pub fn outside() -> Vec<String> {
    let mut numbers: Vec<String> = (10_000..10_020).map(|number| number.to_string()).collect();
    for bits in [16, 17, 24, 31, 32, 33, 48, 53, 63, 64, 65, 96, 127] {
        let power = 1_u128 << bits;
        let around = [power - 9_999, power - 5, power, power + 5, power + 9_999];
        numbers.extend(around.map(|number| number.to_string()));
    }
    // The powers of 2 with 128 bits and with 256 are too long for a number of Rust's.
    numbers.push("340282366920938463463374607431768211461".to_string());
    numbers.push(
        "115792089237316195423570985008687907853269984665640564039457584007913129639941"
            .to_string(),
    );
    for zeros in 4..40 {
        let power = format!("1{}", "0".repeat(zeros));
        numbers.push(format!("{power}5"));
        numbers.push(format!("000{power}"));
        numbers.push(power);
    }
    let below_zero: Vec<String> = numbers.iter().map(|number| format!("-{number}")).collect();
    [numbers, below_zero].concat()
}

/// Bytes that are no number: none at all, a minus where it does not belong, other signs, breaks and
/// marks, letters, digits that are not of ASCII, what stands beside the digits in ASCII, NUL, bytes
/// that are no text, and some after digits that are outside the range already.
#[rustfmt::skip]
pub const NO_NUMBERS: &[&[u8]] = &[
    b"", b"-", b"--", b"--1", b"-1-", b"1-", b"1-1", b"+", b"+1", b"+-1", b"-+1", b"-*", b"(1)",
    b" ", b" 1", b"1 ", b"- 1", b"1 000", b"\t1", b"\n", b"\n1", b"1\n", b"1\r", b"1\r\n", b"#1",
    b"1.", b"1.0", b".5", b"1,000", b"1'000", b"1_000", b"1e3", b"0x10", b"x", b"a1", b"12x", b"-a",
    b"/", b":", b"1/", b"1:", b"/1", b":1", b"-/", b"-:", b"\0", b"\x005", b"-\0", b"1\0", b"1\x005",
    b"\x80", b"1\xFF", b"\xB11", b"\xE01", b"-\xB5", b"10000x", b"-99999 ", b"4294967301\n",
    "−5".as_bytes(), "–5".as_bytes(), "-٥".as_bytes(), "５".as_bytes(), "1²".as_bytes(),
    "1\u{A0}000".as_bytes(), "\u{FEFF}1".as_bytes(), "оди*н".as_bytes(), "1а".as_bytes(),
];
