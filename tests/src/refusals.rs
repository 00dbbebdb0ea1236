//! Section "Turned-away messages", rows 1 to 10. Rows 11 and 12 need an answer or a list of cuts
//! and stand with the operations.

use crate::letters::{is_break, is_consonant, is_sign, is_vowel, letter, symbol, Symbol};

pub const MAX_BYTES: usize = 4096;
pub const MAX_LETTERS: usize = 64;

/// Why a message is turned away, and where.
#[derive(Clone, Copy, Debug, PartialEq, Eq)]
pub struct Refusal {
    pub number: u8,
    pub place: usize,
}

impl Refusal {
    pub fn new(number: u8, place: usize) -> Self {
        Refusal { number, place }
    }

    /// The refusal in an answer of the library's, unless its number is 0.
    pub fn given(number: u32, place: usize) -> Option<Self> {
        let number = u8::try_from(number).expect("no number is above 17");
        (number != 0).then_some(Refusal { number, place })
    }
}

/// The refusal that comes first in the paper's order, if any of rows 1 to 10 fits.
pub fn first_refusal(msg: &[u8]) -> Option<Refusal> {
    if msg.is_empty() {
        return Some(Refusal::new(1, 0));
    }
    if msg.len() > MAX_BYTES {
        return Some(Refusal::new(2, 0));
    }
    let mut letters_of_word = 0;
    for place in 0..msg.len() {
        match symbol(msg[place]) {
            Some(Symbol::Letter(_)) => letters_of_word += 1,
            Some(Symbol::Gap | Symbol::Pause) => letters_of_word = 0,
            Some(Symbol::Stress) | None => {}
        }
        if let Some(number) = number_at(msg, place, letters_of_word) {
            return Some(Refusal { number, place });
        }
    }
    None
}

/// The smallest of the numbers 3 to 10 that fits at this place. The last argument counts the
/// letters of the word up to this place and with it.
fn number_at(msg: &[u8], place: usize, letters_of_word: usize) -> Option<u8> {
    match symbol(msg[place]) {
        None => Some(3),
        Some(Symbol::Gap | Symbol::Pause) => {
            (begins_word(msg, place) || place + 1 == msg.len()).then_some(4)
        }
        Some(Symbol::Stress) => (!directly_after_vowel(msg, place)).then_some(5),
        Some(Symbol::Letter(letter)) => {
            (6..=10).find(|&number| letter_fits(number, letter, msg, place, letters_of_word))
        }
    }
}

fn letter_fits(number: u8, letter: char, msg: &[u8], place: usize, letters_of_word: usize) -> bool {
    match number {
        6 => is_sign(letter) && begins_word(msg, place),
        7 => is_sign(letter) && adjacent_is(msg, place, is_sign).is_some(),
        8 => is_consonant(letter) && adjacent_is(msg, place, |before| before == 'ъ').is_some(),
        9 => is_vowel(letter) && after_vowel_and_sign(msg, place),
        10 => letters_of_word == MAX_LETTERS + 1,
        _ => unreachable!("the other numbers are not about a letter"),
    }
}

/// Whether a place is the first of the message or stands right after a break. A letter there
/// begins a word; a break there has no word before it.
fn begins_word(msg: &[u8], place: usize) -> bool {
    place == 0 || is_break(msg[place - 1])
}

fn directly_after_vowel(msg: &[u8], place: usize) -> bool {
    place > 0 && letter(msg[place - 1]).is_some_and(is_vowel)
}

fn after_vowel_and_sign(msg: &[u8], place: usize) -> bool {
    adjacent_is(msg, place, is_sign)
        .and_then(|sign| adjacent_is(msg, sign, is_vowel))
        .is_some()
}

/// The place of the letter adjacent before this place, if it is of the class.
fn adjacent_is(msg: &[u8], place: usize, class: fn(char) -> bool) -> Option<usize> {
    let before = adjacent_before(msg, place)?;
    letter(msg[before])
        .filter(|&found| class(found))
        .map(|_| before)
}

/// The place of the letter before this place with nothing or only a stress mark between.
fn adjacent_before(msg: &[u8], place: usize) -> Option<usize> {
    let mut before = place.checked_sub(1)?;
    if symbol(msg[before]) == Some(Symbol::Stress) {
        before = before.checked_sub(1)?;
    }
    letter(msg[before]).map(|_| before)
}
