//! Messages that one of the numbers 1 to 10 fits, at a place known from how they are made.

use super::accepted::{
    message, next_letter, random_consonant, random_sign, random_vowel, stem, word,
};
use super::noise::{bytes, foreign_byte};
use super::Rng;
use crate::letters::{is_vowel, letter};
use crate::refusals::{Refusal, MAX_BYTES, MAX_LETTERS};
use crate::text::cp1251;

/// Where the damaged word stands.
#[derive(Clone, Copy, Debug, PartialEq, Eq)]
pub enum Spot {
    /// In the first word.
    First,
    /// In a word with others around it.
    Middle,
    /// At the last byte of the message.
    Last,
}

pub const SPOTS: [Spot; 3] = [Spot::First, Spot::Middle, Spot::Last];

/// A message that is refused with this number, and the refusal. The spot has no meaning for the
/// numbers 1 and 2.
pub fn damaged(rng: &mut Rng, number: u8, spot: Spot) -> (Vec<u8>, Refusal) {
    let (msg, place) = match number {
        1 => (Vec::new(), 0),
        2 => (too_long(rng), 0),
        4 => stray_break(rng, spot),
        _ => {
            let bad = bad_word(rng, number);
            set_among_words(rng, bad, spot)
        }
    };
    (msg, Refusal { number, place })
}

fn too_long(rng: &mut Rng) -> Vec<u8> {
    let length = MAX_BYTES + rng.pick(&[1, 1, 2, 100, 5000]);
    match rng.below(3) {
        0 => bytes(rng, length),
        1 => cp1251("а").repeat(length),
        _ => message(rng, length),
    }
}

fn side(rng: &mut Rng) -> Vec<u8> {
    let longest = if rng.one_in(10) { 1800 } else { 30 };
    let length = rng.between(1, longest);
    message(rng, length)
}

fn stray_break(rng: &mut Rng, spot: Spot) -> (Vec<u8>, usize) {
    let stray = rng.pick(b" #");
    match spot {
        Spot::First => ([vec![stray], side(rng)].concat(), 0),
        Spot::Middle => {
            let mut msg = side(rng);
            msg.push(rng.pick(b" #"));
            let place = msg.len();
            msg.push(stray);
            msg.extend(side(rng));
            (msg, place)
        }
        Spot::Last => {
            let mut msg = side(rng);
            msg.push(stray);
            let place = msg.len() - 1;
            (msg, place)
        }
    }
}

/// Puts a damaged word at its spot. The last byte of the message is the bad one for the last spot.
fn set_among_words(rng: &mut Rng, bad: (Vec<u8>, usize), spot: Spot) -> (Vec<u8>, usize) {
    let (mut bytes, offset) = bad;
    let mut msg = Vec::new();
    if spot != Spot::First {
        msg = side(rng);
        msg.push(rng.pick(b" #"));
    }
    let place = msg.len() + offset;
    if spot == Spot::Last {
        bytes.truncate(offset + 1);
    }
    msg.extend(bytes);
    if spot == Spot::Middle || (spot == Spot::First && rng.one_in(2)) {
        msg.push(rng.pick(b" #"));
        msg.extend(side(rng));
    }
    (msg, place)
}

/// A word with something wrong in it, and the offset of the byte to refuse.
fn bad_word(rng: &mut Rng, number: u8) -> (Vec<u8>, usize) {
    match number {
        3 => with_foreign_byte(rng),
        5 => with_stray_mark(rng),
        6 => (cp1251(&(random_sign(rng).to_string() + "аб")), 0),
        7 => {
            let second = random_sign(rng);
            after_sign(rng, MAX_LETTERS - 1, None, second)
        }
        8 => {
            let consonant = random_consonant(rng);
            after_sign(rng, MAX_LETTERS - 1, Some('ъ'), consonant)
        }
        9 => vowel_sign_vowel(rng),
        10 => with_letter_too_many(rng),
        _ => unreachable!("the other numbers are not about a word"),
    }
}

fn with_foreign_byte(rng: &mut Rng) -> (Vec<u8>, usize) {
    let mut made = word(rng);
    let offset = rng.between(0, made.len());
    made.insert(offset, foreign_byte(rng));
    (made, offset)
}

/// A mark where no vowel is right before it: at the beginning, after a consonant, a sign, a mark.
fn with_stray_mark(rng: &mut Rng) -> (Vec<u8>, usize) {
    let mut made = word(rng);
    let stray = |&offset: &usize| offset == 0 || !letter(made[offset - 1]).is_some_and(is_vowel);
    let offsets: Vec<usize> = (0..=made.len()).filter(stray).collect();
    let offset = rng.pick(&offsets);
    made.insert(offset, b'*');
    (made, offset)
}

/// How many letters to put before the damage: some, or so many that the bad letter is also the
/// 65th of its word, where the smaller number must win.
fn letters_before(rng: &mut Rng, most: usize) -> usize {
    if rng.one_in(4) {
        most
    } else {
        rng.between(1, 12)
    }
}

/// A stem, a sign, and a letter that must not stand there.
fn after_sign(rng: &mut Rng, most: usize, sign: Option<char>, bad: char) -> (Vec<u8>, usize) {
    let count = letters_before(rng, most);
    let mut made = stem(rng, count);
    made.push(sign.unwrap_or_else(|| random_sign(rng)));
    ends_badly(made, bad)
}

fn vowel_sign_vowel(rng: &mut Rng) -> (Vec<u8>, usize) {
    let count = letters_before(rng, MAX_LETTERS - 1) - 1;
    let mut made = stem(rng, count);
    made.push(random_vowel(rng));
    if rng.one_in(2) {
        made.push('*');
    }
    made.push(random_sign(rng));
    let bad = random_vowel(rng);
    ends_badly(made, bad)
}

fn with_letter_too_many(rng: &mut Rng) -> (Vec<u8>, usize) {
    let made = stem(rng, MAX_LETTERS);
    let bad = next_letter(rng, &made);
    ends_badly(made, bad)
}

/// The bad letter with more letters after it, so that it is not always a word's last.
fn ends_badly(mut good: String, bad: char) -> (Vec<u8>, usize) {
    let offset = good.chars().count();
    good.push(bad);
    good.push_str("ам");
    (cp1251(&good), offset)
}
