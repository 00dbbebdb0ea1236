//! Where the marks of a word stand and which levels its vowels get from them: every set of marks on
//! words of a few vowels, beside words whose own marks must not count, and a mark at every place of
//! the longest words.

use govorun_tests::{agreed, cp1251};

/// Sixty-four letters: vowels alone, and syllables of two letters.
const VOWELS: &str = "аоуыэеёиюяаоуыэеёиюяаоуыэеёиюяаоуыэеёиюяаоуыэеёиюяаоуыэеёиюяаоуы";
const SYLLABLES: &str = "навосутымэлерёкинювясатомулырэкенёвисютямалорукынэвесётимюлярако";

const LONGEST: usize = 4096;

fn vowels(word: &str) -> usize {
    word.chars()
        .filter(|&letter| "аоуыэеёиюя".contains(letter))
        .count()
}

/// The word with a mark on each vowel of which `is_marked` says so by its number.
fn marked(word: &str, is_marked: impl Fn(usize) -> bool) -> String {
    let mut written = String::new();
    for letter in word.chars() {
        let number = vowels(&written);
        written.push(letter);
        if vowels(&written) > number && is_marked(number) {
            written.push('*');
        }
    }
    written
}

/// Names and tape of a message, on which all implementations agree; the names are handed on.
fn names(text: &str) -> Vec<u8> {
    let msg = cp1251(text);
    agreed::tape(&msg, 2 * LONGEST).expect("an accepted message");
    agreed::names(&msg, 2 * LONGEST).expect("an accepted message")
}

/// The levels of pass 2, told from the marks: 0 for S.
fn level(count: usize, is_marked: &impl Fn(usize) -> bool, number: usize) -> u8 {
    let any = (0..count).any(is_marked);
    match (
        is_marked(number),
        number + 1 < count && is_marked(number + 1),
    ) {
        (true, _) => 0,
        (false, true) => 1,
        (false, false) => 1 + u8::from(any),
    }
}

/// The names of a word of vowels alone, or of syllables that all begin with a consonant.
fn expected(count: usize, is_bare: bool, is_marked: impl Fn(usize) -> bool) -> Vec<u8> {
    let name = |number| 2 * level(count, &is_marked, number) + 1 + u8::from(is_bare);
    (0..count).map(name).collect()
}

#[test]
fn every_set_of_marks_beside_other_words() {
    for (word, is_bare) in [("аоуыэеёию", true), ("навосутымэлерёкиню", false)]
    {
        let count = vowels(word);
        for set in 0..1 << count {
            let is_marked = |number: usize| set >> number & 1 == 1;
            let written = marked(word, is_marked);
            let own = expected(count, is_bare, is_marked);
            assert_eq!(names(&written), own);
            for (before, after) in [("о* ", " у"), ("о ", " у*"), ("о*#", "#у*"), ("к ", " к")]
            {
                let all = names(&format!("{before}{written}{after}"));
                assert_eq!(all[1..=count], own, "{before}{written}{after}");
            }
        }
    }
}

/// As many words as a message holds, and how many those are.
fn filled(word: &str) -> (String, usize) {
    let count = (LONGEST + 1) / (word.chars().count() + 1);
    (vec![word; count].join(" "), count)
}

#[test]
fn a_mark_at_every_place_of_the_longest_words() {
    for (word, is_bare) in [(VOWELS, true), (SYLLABLES, false)] {
        let count = vowels(word);
        let tries = |is_marked: &dyn Fn(usize) -> bool| {
            let (text, words) = filled(&marked(word, is_marked));
            assert_eq!(
                names(&text),
                expected(count, is_bare, is_marked).repeat(words)
            );
        };
        for place in 0..count {
            tries(&|number| number == place);
            tries(&|number| number != place);
        }
        tries(&|_| false);
        tries(&|_| true);
    }
}

#[test]
fn two_thousand_words_of_one_letter() {
    let plain = vec!["а"; 2048].join(" ");
    assert_eq!(names(&plain), [4; 2048]);
    let stressed = filled("а*");
    assert_eq!(names(&stressed.0), vec![2; stressed.1]);
    let by_turns = filled("а* я");
    assert_eq!(names(&by_turns.0), [2, 4].repeat(by_turns.1));
}
