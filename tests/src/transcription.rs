//! The five passes in the paper's order, over a message that has been accepted.

use crate::codes::{lay, Made, Spoken};
use crate::edition::Edition;
use crate::elision::elide;
use crate::message::{words, Word};
use crate::palatalization::palatalize;
use crate::syllables::names_of;
use crate::voicing::voice;
use crate::vowels::speak_vowels;

/// The words of an accepted message without silent letters, and the sounds of their letters.
pub fn speak(edition: Edition, msg: &[u8]) -> (Vec<Word>, Vec<Vec<Spoken>>) {
    let heard = elide(&words(msg));
    let mut spoken = speak_vowels(edition, &heard);
    voice(&heard, &mut spoken);
    palatalize(&heard, &mut spoken);
    (heard, spoken)
}

/// The codes of an accepted message in order, each with what made it.
pub fn made(edition: Edition, msg: &[u8]) -> Vec<Made> {
    let (heard, spoken) = speak(edition, msg);
    lay(&heard, &spoken)
}

/// The tape of an accepted message.
pub fn transcribe(edition: Edition, msg: &[u8]) -> Vec<u8> {
    made(edition, msg).iter().map(|made| made.code).collect()
}

/// The syllable names of an accepted message.
pub fn syllable_names(msg: &[u8]) -> Vec<u8> {
    elide(&words(msg)).iter().flat_map(names_of).collect()
}
