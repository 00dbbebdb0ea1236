//! The built program `govorun` beside the expected print.

use std::fs::File;
use std::path::Path;
use std::process::Stdio;
use std::time::Duration;

use govorun_tests::agreed::{print, print_all};
use govorun_tests::gen::damaged::SPOTS;
use govorun_tests::gen::noise::{bytes, string};
use govorun_tests::gen::{
    damaged, extreme_messages, lexicon, message, message_of_any_length, word, Rng,
};
use govorun_tests::program::{good, written, GOVORUN};
use govorun_tests::{cp1251, hex};

/// Compares all messages.
fn compare_all(messages: &[Vec<u8>]) {
    print_all(GOVORUN, messages);
}

#[test]
fn empty_message_and_every_byte() {
    let mut messages: Vec<Vec<u8>> = (0..=255).map(|byte| vec![byte]).collect();
    messages.push(Vec::new());
    compare_all(&messages);
}

#[test]
fn every_pair_of_bytes() {
    let pair = |number: u16| number.to_be_bytes().to_vec();
    let messages: Vec<Vec<u8>> = (0..=u16::MAX).map(pair).collect();
    compare_all(&messages);
}

#[test]
fn listed_words() {
    let mut rng = Rng::for_test(50);
    let words: Vec<Vec<u8>> = lexicon::words().iter().map(|word| cp1251(word)).collect();
    let mut messages = words.clone();
    for _ in 0..2000 {
        let count = rng.between(2, 5);
        let chosen: Vec<&[u8]> = (0..count)
            .map(|_| &words[rng.below(words.len())][..])
            .collect();
        messages.push(chosen.join(&rng.pick(b"   #")));
    }
    compare_all(&messages);
}

#[test]
fn accepted_messages() {
    let mut rng = Rng::for_test(51);
    let mut messages: Vec<Vec<u8>> = (0..6500).map(|_| message_of_any_length(&mut rng)).collect();
    messages.extend((0..500).map(|_| word(&mut rng)));
    messages.extend((1..=100).map(|short| message(&mut rng, 4097 - short)));
    messages.extend(extreme_messages(&mut rng, 0));
    compare_all(&messages);
}

#[test]
fn damaged_messages() {
    let mut rng = Rng::for_test(52);
    let mut messages = Vec::new();
    for number in 1..=10 {
        for spot in SPOTS {
            messages.extend((0..150).map(|_| damaged(&mut rng, number, spot).0));
        }
    }
    compare_all(&messages);
}

#[test]
fn bytes_and_strings_without_sense() {
    let mut rng = Rng::for_test(53);
    let mut messages = Vec::new();
    for _ in 0..1000 {
        let length = rng.below(60);
        messages.push(bytes(&mut rng, length));
        let alphabet = rng.pick(&["абв* #", "иэдьж* ", "стндзцк ", "сбьъа ", "лоьъ* ", "а7\n*"]);
        let length = rng.between(3, 12);
        messages.push(string(&mut rng, &cp1251(alphabet), length));
    }
    compare_all(&messages);
}

#[test]
fn messages_over_the_longest_length() {
    let mut rng = Rng::for_test(54);
    let mut messages = Vec::new();
    for length in [
        4097, 4098, 5000, 8191, 8192, 8193, 16_384, 65_536, 65_537, 100_000,
    ] {
        messages.push(message(&mut rng, length));
        messages.push(bytes(&mut rng, length));
        messages.push(vec![b' '; length]);
        messages.push(vec![0xE0; length]);
    }
    compare_all(&messages);
}

#[test]
fn an_end_of_line_is_a_foreign_byte() {
    for text in ["ду*б ра*д\n", "\n", "ду*б\r\n", "а\0"] {
        print(&cp1251(text));
    }
}

#[test]
fn input_that_comes_in_pieces() {
    let mut rng = Rng::for_test(55);
    let wait = Duration::from_millis(2);
    for (length, piece) in [
        (7, 1),
        (30, 1),
        (4096, 1000),
        (4096, 4095),
        (4097, 4096),
        (9000, 4096),
    ] {
        let msg = message(&mut rng, length);
        let given = GOVORUN.piped(&msg, piece, wait);
        assert_eq!(given, (GOVORUN.expected)(&msg), "message {}", hex(&msg));
    }
}

#[test]
fn input_from_a_file() {
    let mut rng = Rng::for_test(56);
    let path = Path::new(env!("CARGO_TARGET_TMPDIR")).join("message");
    for length in [1, 100, 4096, 4097, 100_000] {
        let msg = message(&mut rng, length);
        std::fs::write(&path, &msg).expect("a file for the message");
        let file = File::open(&path).expect("the file is there");
        let given = written(GOVORUN.start(file.into()));
        assert_eq!(given, (GOVORUN.expected)(&msg), "message {}", hex(&msg));
    }
    let given = written(GOVORUN.start(Stdio::null()));
    assert_eq!(given, good("refused 1 at 0\n"));
}
