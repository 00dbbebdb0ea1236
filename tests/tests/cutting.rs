//! Demand 3 by search: the tape of a whole message beside the tapes of its parts, for every list
//! of cuts of every short message over small alphabets, and for random ones of long messages.

use govorun_tests::agreed::{live_places, tape, PAIR};
use govorun_tests::gen::noise::every_string;
use govorun_tests::gen::{every_list, good_cuts, message_of_any_length, Rng};
use govorun_tests::message::breaks;
use govorun_tests::{cp1251, show};

/// The tapes of a message in both editions have at most two codes for a byte.
fn not_too_long(msg: &[u8], wholes: &[Vec<u8>; 2]) {
    for whole in wholes {
        assert!(whole.len() <= 2 * msg.len(), "{}", show(msg));
    }
}

/// How many messages were accepted, and how many of them had a live joint. A search that meets
/// none of them would prove nothing.
#[derive(Default)]
struct Met {
    accepted: usize,
    live: usize,
}

impl Met {
    /// Demand 3 for every list of cuts of one message, if it is accepted.
    fn try_every_list(&mut self, msg: &[u8]) {
        let Some(wholes) = PAIR.wholes(msg) else {
            return;
        };
        not_too_long(msg, &wholes);
        let live = live_places(msg);
        for cuts in every_list(msg) {
            PAIR.holds(msg, &wholes, &live, &cuts);
        }
        self.accepted += 1;
        self.live += usize::from(!live.is_empty());
    }

    fn at_least(&self, accepted: usize, live: usize) {
        println!(
            "{} accepted, {} with a live joint",
            self.accepted, self.live
        );
        assert!(self.accepted >= accepted && self.live >= live);
    }
}

/// All strings over the alphabet up to a length.
fn search(alphabet: &str, longest: usize) -> Met {
    let mut met = Met::default();
    every_string(&cp1251(alphabet), longest, &mut |msg| {
        met.try_every_list(msg)
    });
    met
}

#[test]
fn voiced_and_voiceless_words() {
    search("дква #", 7).at_least(100_000, 2_000);
}

#[test]
fn signs_before_the_break() {
    search("сбьъа ", 7).at_least(35_000, 1_500);
}

#[test]
fn opening_vowels() {
    search("иэдь* ", 7).at_least(35_000, 5_000);
}

#[test]
fn hard_and_soft_ends() {
    search("ижцйьа #", 6).at_least(90_000, 3_000);
}

#[test]
fn sounds_with_a_second_code() {
    search("яежхч* ", 6).at_least(45_000, 900);
}

#[test]
fn silent_letters_and_softness() {
    search("стнди ", 6).at_least(30_000, 2_000);
}

const LETTERS: &str = "абвгдеёжзийклмнопрстуфхцчшщъыьэюя";

/// Every form with every letter in the place of its question mark.
fn filled(forms: &[&str]) -> Vec<String> {
    let fill = |form: &&str| {
        let form = form.to_string();
        LETTERS
            .chars()
            .map(move |letter| form.replace('?', &letter.to_string()))
    };
    forms.iter().flat_map(fill).collect()
}

#[test]
fn every_two_letters_around_a_break() {
    let mut met = Met::default();
    for last in filled(&["?", "?ь", "?ъ", "а*?", "а?ь", "а?ъ"]) {
        for first in filled(&["?", "?*", "?а*", "?ба", "?ьба*"]) {
            for mark in [' ', '#'] {
                met.try_every_list(&cp1251(&format!("{last}{mark}{first}")));
            }
        }
    }
    met.at_least(50_000, 3_000);
}

#[test]
fn every_three_words_of_one_letter() {
    // The vowel at the end lets voice begin there; it crosses the words from right to left.
    let mut met = Met::default();
    for one in LETTERS.chars() {
        for two in LETTERS.chars() {
            for three in LETTERS.chars() {
                met.try_every_list(&cp1251(&format!("{one} {two} {three}а")));
            }
        }
    }
    met.at_least(29_000, 4_000);
}

#[test]
fn every_five_words_of_a_few() {
    let words = ["к", "в", "сь", "да", "и*"];
    let mut met = Met::default();
    for number in 0..words.len().pow(5) {
        let chosen: Vec<&str> = (0..5)
            .map(|digit| words[number / words.len().pow(digit) % words.len()])
            .collect();
        let gaps = chosen.join(" ");
        met.try_every_list(&cp1251(&gaps));
        met.try_every_list(&cp1251(&gaps.replacen(" к", "#к", 1)));
    }
    met.at_least(6_000, 3_000);
}

#[test]
fn random_messages_with_random_lists() {
    let mut rng = Rng::for_test(3);
    for _ in 0..2000 {
        let msg = message_of_any_length(&mut rng);
        let wholes = PAIR.wholes(&msg).expect("an accepted message");
        not_too_long(&msg, &wholes);
        let live = live_places(&msg);
        for _ in 0..3 {
            let cuts = good_cuts(&mut rng, &msg);
            PAIR.holds(&msg, &wholes, &live, &cuts);
        }
        PAIR.holds(&msg, &wholes, &live, &breaks(&msg));
    }
}

#[test]
fn the_longest_tape() {
    // Each bare я has two sounds; only the gaps have one code for their byte.
    let msg = cp1251(&[&"я".repeat(64)[..]; 63].join(" "));
    let tape = tape(&msg, usize::MAX).expect("an accepted message");
    assert_eq!((msg.len(), tape.len()), (4094, 2 * 4094 - 62));
}
