//! The built program `speak` beside the expected print: texts in UTF-8, read, edited and spoken.

use std::fs::File;
use std::path::Path;
use std::process::Stdio;
use std::time::Duration;

use govorun_tests::agreed::{print_all, speak};
use govorun_tests::answers::MAX_INPUT;
use govorun_tests::gen::damaged::SPOTS;
use govorun_tests::gen::noise::bytes;
use govorun_tests::gen::utf8::{taken, untaken, TAKEN};
use govorun_tests::gen::{
    damaged, extreme_messages, lexicon, message, message_of_any_length, punctuated, Rng,
};
use govorun_tests::program::{self, good, SPEAK};
use govorun_tests::utf8::written;
use govorun_tests::{cp1251, expected_print, hex};

/// Compares all texts.
fn compare_all(texts: &[Vec<u8>]) {
    print_all(SPEAK, texts);
}

#[test]
fn sentences() {
    let spoken = |text: &str| speak(text.as_bytes());
    assert_eq!(spoken("ду*б ра*д"), "24 6 39 0 41 1 45\n");
    assert_eq!(spoken("ДУ*Б РА*Д"), "24 6 39 0 41 1 45\n");
    assert_eq!(spoken("\"Ду*б\", - (ра*д)!"), "24 6 39 63 41 1 45\n");
    for text in ["Лесна*я, две*!", "Лесна*я#две*"] {
        assert_eq!(spoken(text), expected_print(&cp1251("лесна*я#две*")));
    }
}

/// The reader's refusal comes first and counts bytes of the text; the others count in what is
/// edited.
#[test]
fn refusals() {
    let spoken = |text: &str| speak(text.as_bytes());
    assert_eq!(spoken("ду*б☃"), "refused 13 at 7\n");
    assert_eq!(spoken("ду*б\n"), "refused 13 at 7\n");
    assert_eq!(spoken("- б*, а7"), "refused 13 at 9\n");
    assert_eq!(spoken("- а, б*"), "refused 5 at 3\n");
    assert_eq!(spoken("(ь)"), "refused 6 at 0\n");
    assert_eq!(spoken(""), "refused 1 at 0\n");
    assert_eq!(spoken("..."), "refused 1 at 0\n");
    assert_eq!(spoken(&"а!".repeat(2048)), ["7"; 2048].join(" 63 ") + "\n");
    assert_eq!(spoken(&"а!".repeat(2049)), "refused 2 at 0\n");
    assert_eq!(speak(&cp1251("ду*б")), "refused 13 at 0\n");
}

#[test]
fn every_byte_and_every_character() {
    let mut texts: Vec<Vec<u8>> = (0..=255).map(|byte| vec![byte]).collect();
    let taken = TAKEN.chars().map(|character| format!("а{character}а"));
    texts.extend(taken.map(String::into_bytes));
    compare_all(&texts);
}

#[test]
fn listed_words() {
    let mut rng = Rng::for_test(110);
    let words = lexicon::words();
    let mut texts: Vec<Vec<u8>> = words.iter().map(|&word| word.into()).collect();
    for _ in 0..500 {
        let chosen: Vec<&str> = (0..5).map(|_| rng.pick(words)).collect();
        let between = rng.pick(&[" ", ", ", " - ", "#", "; "]);
        texts.push(chosen.join(between).into());
    }
    compare_all(&texts);
}

/// Messages of all kinds with punctuation, in UTF-8.
#[test]
fn messages() {
    let mut rng = Rng::for_test(111);
    let mut messages: Vec<Vec<u8>> = (0..1000).map(|_| message_of_any_length(&mut rng)).collect();
    messages.extend((4090..=4100).map(|length| message(&mut rng, length)));
    messages.extend(extreme_messages(&mut rng, 0));
    for number in 5..=10 {
        for spot in SPOTS {
            messages.extend((0..10).map(|_| damaged(&mut rng, number, spot).0));
        }
    }
    let texts = messages
        .iter()
        .map(|msg| written(&punctuated(&mut rng, msg, 3)));
    compare_all(&texts.collect::<Vec<_>>());
}

#[test]
fn wrong_sequences() {
    let mut rng = Rng::for_test(112);
    let mut texts = Vec::new();
    for sequence in untaken() {
        for longest in [0, 10, 1000] {
            let [before, after] = [(); 2].map(|()| taken(&mut rng, longest));
            texts.push([before.as_bytes(), &sequence, after.as_bytes()].concat());
        }
    }
    for _ in 0..500 {
        let length = rng.below(20);
        texts.push(bytes(&mut rng, length));
        texts.push(taken(&mut rng, length).into());
    }
    compare_all(&texts);
}

/// A text of this length that is spoken: sounds with runs of gaps between them.
fn spoken_text(rng: &mut Rng, length: usize) -> Vec<u8> {
    let msg = message(rng, 2000);
    let mut text = written(&punctuated(rng, &msg, 9));
    text.resize(length, b'-');
    text
}

/// The most that is taken, and one byte more, which is too long whatever it is: nothing is printed.
#[test]
fn texts_of_about_the_longest_length() {
    let mut rng = Rng::for_test(113);
    assert_eq!(MAX_INPUT, 65_536);
    for length in [40_000, 65_535, 65_536] {
        let mut text = spoken_text(&mut rng, length);
        assert!(!speak(&text).starts_with("refused"));
        text[length - 1] = b'\n';
        assert_eq!(speak(&text), format!("refused 13 at {}\n", length - 1));
        assert_eq!(speak(&vec![b' '; length]), "refused 1 at 0\n");
    }
    for length in [65_537, 65_538, 70_000, 131_072, 131_073, 1_000_000] {
        for text in [
            spoken_text(&mut rng, length),
            bytes(&mut rng, length),
            vec![b' '; length],
        ] {
            assert_eq!(speak(&text), "");
        }
    }
}

/// The pieces end in the middle of letters too.
#[test]
fn input_that_comes_in_pieces() {
    let mut rng = Rng::for_test(114);
    let wait = Duration::from_millis(2);
    for (length, piece) in [
        (40, 1),
        (9001, 1001),
        (65_536, 4095),
        (65_537, 32_769),
        (65_536, 65_535),
    ] {
        let text = spoken_text(&mut rng, 65_536);
        let text = &[&text[..], b"-"].concat()[..length];
        let given = SPEAK.piped(text, piece, wait);
        assert_eq!(given, (SPEAK.expected)(text), "text {}", hex(text));
    }
}

#[test]
fn input_from_a_file() {
    let mut rng = Rng::for_test(115);
    let path = Path::new(env!("CARGO_TARGET_TMPDIR")).join("text");
    for length in [20_000, 65_536, 65_537, 300_000] {
        let text = spoken_text(&mut rng, length);
        std::fs::write(&path, &text).expect("a file for the text");
        let file = File::open(&path).expect("the file is there");
        let given = program::written(SPEAK.start(file.into()));
        assert_eq!(given, (SPEAK.expected)(&text), "text {}", hex(&text));
    }
    let given = program::written(SPEAK.start(Stdio::null()));
    assert_eq!(given, good("refused 1 at 0\n"));
}
