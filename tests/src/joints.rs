//! Section "Joints": live cuts, the parts of a message and the second tape.

use crate::codes::{first_sound, GAP, PAUSE};
use crate::edition::Edition;
use crate::letters::{is_obstruent, is_sign, symbol, Symbol};
use crate::message::{breaks, words, Break, Word};
use crate::refusals::Refusal;
use crate::transcription::{speak, transcribe};
use crate::voicing::makes_voiced;
use crate::vowels::hard_boundary_before;

/// The places of an accepted message where a cut is live, in order, by the tape that it has in an
/// edition. The list of cuts has no say in it.
pub fn live_places(edition: Edition, msg: &[u8]) -> Vec<usize> {
    let written = words(msg);
    let (_, spoken) = speak(edition, msg);
    let places = breaks(msg);
    (0..places.len())
        .filter(|&index| written[index + 1].before == Some(Break::Gap))
        .filter(|&index| {
            let next_sound = first_sound(&spoken[index + 1]);
            voicing_crosses(&written[index], next_sound)
                || opening_vowel_changes(&written, index + 1)
        })
        .map(|index| places[index])
        .collect()
}

/// Condition (a): an obstruent, signs passed over, before a sound of set D.
fn voicing_crosses(before: &Word, next_sound: Option<u8>) -> bool {
    let mut letters = before.letters.iter().rev().map(|l| l.letter);
    let last = letters.find(|&letter| !is_sign(letter));
    last.is_some_and(is_obstruent) && next_sound.is_some_and(makes_voiced)
}

/// Condition (b): и, or э without a mark, begins the word after a hard boundary.
fn opening_vowel_changes(words: &[Word], index: usize) -> bool {
    let first = words[index].letters[0];
    let changes = first.letter == 'и' || (first.letter == 'э' && !first.stressed);
    changes && hard_boundary_before(words, index)
}

/// Row 12 of the refusals: the index of the first bad cut.
pub fn bad_cut(msg: &[u8], cuts: &[usize]) -> Option<Refusal> {
    let places = breaks(msg);
    (0..cuts.len())
        .find(|&index| {
            let rises = index == 0 || cuts[index] > cuts[index - 1];
            !rises || places.binary_search(&cuts[index]).is_err()
        })
        .map(|place| Refusal { number: 12, place })
}

/// The parts of a message between good cuts; the bytes at the cuts are in none of them.
pub fn parts<'a>(msg: &'a [u8], cuts: &[usize]) -> Vec<&'a [u8]> {
    let mut parts = Vec::new();
    let mut start = 0;
    for &cut in cuts {
        parts.push(&msg[start..cut]);
        start = cut + 1;
    }
    parts.push(&msg[start..]);
    parts
}

/// The second tape: each part transcribed by itself, all in one edition, and the marks of the cuts
/// between them.
pub fn second_tape(edition: Edition, msg: &[u8], cuts: &[usize]) -> Vec<u8> {
    let mut tape = Vec::new();
    for (index, part) in parts(msg, cuts).into_iter().enumerate() {
        if index > 0 {
            tape.push(mark(msg[cuts[index - 1]]));
        }
        tape.extend(transcribe(edition, part));
    }
    tape
}

/// The code that a break byte leaves on the tape.
fn mark(byte: u8) -> u8 {
    match symbol(byte) {
        Some(Symbol::Gap) => GAP,
        Some(Symbol::Pause) => PAUSE,
        _ => unreachable!("a good cut stands at a break"),
    }
}
