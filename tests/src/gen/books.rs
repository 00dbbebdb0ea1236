//! Books of phrases: sound ones, and others that are damaged in a known manner or in any; and who
//! looks into them.

use super::{message, noise, Rng};
use crate::book::{record, HEAD, MARK};
use crate::edition::EDITIONS;
use crate::refusals::Refusal;
use crate::transcription::transcribe;
use crate::unit::LISTENERS;

/// A phrase of a book. In a book that came from elsewhere the tape may be any bytes.
#[derive(Clone, Debug, PartialEq, Eq)]
pub struct Phrase {
    pub number: u16,
    pub set: u8,
    pub tape: Vec<u8>,
}

impl Phrase {
    pub fn new(number: u16, set: u8, tape: &[u8]) -> Self {
        Phrase {
            number,
            set,
            tape: tape.to_vec(),
        }
    }
}

/// The mark of an earlier kind of record, which had no set.
const EARLIER_MARK: [u8; 2] = [0x52, 0x9E];

/// The mark of a later kind of record.
const LATER_MARK: [u8; 2] = [0x52, 0xA0];

/// Numbers that mean no listener. Cut to fewer bits, some of them would be one; and at some a set
/// has a bit.
#[rustfmt::skip]
pub const NOBODY: [u32; 15] = [
    3, 4, 5, 7, 8, 254, 255, 256, 257, 258, 65_536, 65_538, 1 << 31, (1 << 31) + 2, u32::MAX,
];

/// One of the three listeners, and now and then nobody.
pub fn any_listener(rng: &mut Rng) -> u32 {
    match rng.below(8) {
        0 => rng.pick(&NOBODY),
        _ => rng.pick(&LISTENERS),
    }
}

/// A set of listeners: each of the eight alike, half of them with bits that stand for nobody.
pub fn any_set(rng: &mut Rng) -> u8 {
    rng.bits() as u8 & rng.pick(&[0b111, 0xFF])
}

/// The book that holds these phrases.
pub fn laid(phrases: &[Phrase]) -> Vec<u8> {
    let record = |phrase: &Phrase| record(phrase.number, phrase.set, &phrase.tape);
    phrases.iter().flat_map(record).collect()
}

/// Up to so many phrases with rising numbers, and at least one; fewer where the numbers end.
pub fn phrases(rng: &mut Rng, most: usize) -> Vec<Phrase> {
    let mut number = rng.pick(&[0, 0, 1, 250, 60_000, 65_530, 65_535]);
    let mut phrases = Vec::new();
    while phrases.len() < most && number <= usize::from(u16::MAX) {
        let (set, tape) = (any_set(rng), any_tape(rng));
        phrases.push(Phrase::new(number as u16, set, &tape));
        number += rng.pick(&[1, 1, 1, 2, 3, 255, 256, 257]);
    }
    phrases
}

/// A tape of the unit's, or bytes that no unit wrote: none, marks, a whole record, as many as two
/// bytes can count.
pub fn any_tape(rng: &mut Rng) -> Vec<u8> {
    let length = rng.between(1, 20);
    match rng.below(12) {
        0 | 1 => Vec::new(),
        2 => noise::bytes(rng, length),
        3 => MARK.repeat(length),
        4 => record(length as u16, any_set(rng), &noise::bytes(rng, length)),
        5 => vec![0; length],
        6 if rng.one_in(20) => noise::bytes(rng, usize::from(u16::MAX) - length + 1),
        6 => noise::bytes(rng, 245 + length),
        _ => transcribe(rng.pick(&EDITIONS), &message(rng, length)),
    }
}

/// What is wrong with the first bad record of a book.
#[derive(Clone, Copy, Debug, PartialEq, Eq)]
pub enum Damage {
    /// A byte of its mark is another one.
    Mark,
    /// It is of the earlier kind.
    Earlier,
    /// It has the mark of the later kind.
    Later,
    /// The book ends within it.
    CutShort,
    /// It is the last and says that it has more bytes than it has.
    TooLong,
    /// It has the number of the record before it.
    Equal,
    /// It has a number below that of the record before it.
    Falling,
    /// It has changed places with the record after it.
    Exchanged,
    /// It stands there twice.
    Twice,
}

pub const DAMAGES: [Damage; 9] = [
    Damage::Mark,
    Damage::Earlier,
    Damage::Later,
    Damage::CutShort,
    Damage::TooLong,
    Damage::Equal,
    Damage::Falling,
    Damage::Exchanged,
    Damage::Twice,
];

/// A book of these phrases with a bad record, and the refusal that it must meet. There is none if
/// the damage needs a record more, or a number or length that two bytes do not hold.
pub fn damaged(rng: &mut Rng, phrases: &[Phrase], damage: Damage) -> Option<(Vec<u8>, Refusal)> {
    let chosen = match damage {
        Damage::TooLong => phrases.len() - 1,
        _ => rng.below(phrases.len()),
    };
    match damage {
        Damage::Mark | Damage::Earlier | Damage::Later | Damage::CutShort | Damage::TooLong => {
            let start = laid(&phrases[..chosen]).len();
            let length = phrases[chosen].tape.len();
            let book = with_bad_bytes(rng, laid(phrases), start, length, damage)?;
            Some((book, Refusal::new(15, start)))
        }
        _ => {
            let (phrases, bad) = with_bad_number(rng, phrases, chosen, damage)?;
            let start = laid(&phrases[..bad]).len();
            Some((laid(&phrases), Refusal::new(16, start)))
        }
    }
}

/// The book with a record that has no mark or no end. It starts here, and so long is its tape.
fn with_bad_bytes(
    rng: &mut Rng,
    mut book: Vec<u8>,
    start: usize,
    length: usize,
    damage: Damage,
) -> Option<Vec<u8>> {
    match damage {
        Damage::Mark => book[start + rng.below(2)] ^= 1 << rng.below(8),
        Damage::Earlier => {
            book[start..][..2].copy_from_slice(&EARLIER_MARK);
            book.remove(start + 4);
        }
        Damage::Later => book[start..][..2].copy_from_slice(&LATER_MARK),
        Damage::CutShort => book.truncate(start + rng.between(1, HEAD + length - 1)),
        _ => {
            let more = rng.pick(&[1, 1, 2, 255, 256, 30_000]);
            let length = u16::try_from(length + more).ok()?;
            book[start + 5..][..2].copy_from_slice(&length.to_le_bytes());
        }
    }
    Some(book)
}

/// The phrases with one whose number does not rise, and its index.
fn with_bad_number(
    rng: &mut Rng,
    phrases: &[Phrase],
    chosen: usize,
    damage: Damage,
) -> Option<(Vec<Phrase>, usize)> {
    let mut phrases = phrases.to_vec();
    match damage {
        Damage::Twice => {
            phrases.insert(chosen, phrases[chosen].clone());
            return Some((phrases, chosen + 1));
        }
        Damage::Exchanged => phrases.swap(chosen.checked_sub(1)?, chosen),
        _ => {
            let before = phrases[chosen.checked_sub(1)?].number;
            phrases[chosen].number = match damage {
                Damage::Equal => before,
                _ if before == 0 => return None,
                _ => rng.below(before.into()) as u16,
            };
        }
    }
    Some((phrases, chosen))
}

/// Changes a book in any manner: a byte, a number, a set or a length by one; bytes cut off, put in,
/// taken out, put in another place.
pub fn muddle(rng: &mut Rng, book: &mut Vec<u8>) {
    let place = rng.below(book.len() + 1);
    let count = rng.between(1, 8).min(book.len() - place);
    match rng.below(8) {
        0 => book.truncate(place),
        1 => drop(book.drain(place..place + count)),
        2 => {
            let moved: Vec<u8> = book.drain(place..place + count).collect();
            let to = rng.below(book.len() + 1);
            book.splice(to..to, moved);
        }
        3 => {
            let length = rng.between(1, 8);
            book.splice(place..place, noise::bytes(rng, length));
        }
        4 => {
            let byte = rng.pick(&[0, 1, 0x52, 0x9E, 0x9F, 0xA0, 0xFF]);
            change(book, place, |_| byte);
        }
        _ => {
            let starts = places_of_mark(book);
            let start = starts.get(rng.below(starts.len() + 1));
            let low = start.unwrap_or(&place) + rng.pick(&[2, 4, 5, 5]);
            let step = rng.pick(&[1, u8::MAX]);
            change(book, low, |byte| byte.wrapping_add(step));
        }
    }
}

/// Changes the byte at this place, if there is one.
fn change(book: &mut [u8], place: usize, changed: impl Fn(u8) -> u8) {
    if let Some(byte) = book.get_mut(place) {
        *byte = changed(*byte);
    }
}

fn places_of_mark(book: &[u8]) -> Vec<usize> {
    let is_mark = |&place: &usize| book[place..].starts_with(&MARK);
    (0..book.len()).filter(is_mark).collect()
}

/// Numbers to look up in a book, sound or not: up to so many of those that stand behind a mark,
/// those beside them, and some others.
pub fn numbers(rng: &mut Rng, book: &[u8], most: usize) -> Vec<u16> {
    let mut starts = places_of_mark(book);
    while starts.len() > most {
        starts.swap_remove(rng.below(starts.len()));
    }
    let mut numbers = vec![0, u16::MAX, rng.bits() as u16];
    for start in starts {
        if let Some(&[low, high]) = book.get(start + 2..start + 4) {
            let number = u16::from_le_bytes([low, high]);
            let beside = [number.wrapping_sub(1), number.wrapping_add(1)];
            numbers.extend([number, beside[0], beside[1]]);
        }
    }
    numbers
}
