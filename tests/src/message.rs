//! Section "Bytes of a message": an accepted message taken apart into words.

use crate::letters::{is_break, letter, symbol, Symbol};

/// A letter of a word, with the stress mark that may follow it.
#[derive(Clone, Copy, Debug, PartialEq, Eq)]
pub struct Letter {
    pub letter: char,
    pub stressed: bool,
}

#[derive(Clone, Copy, Debug, PartialEq, Eq)]
pub enum Break {
    Gap,
    Pause,
}

/// A word, with the break that stands before it unless it is the first.
#[derive(Clone, Debug)]
pub struct Word {
    pub before: Option<Break>,
    pub letters: Vec<Letter>,
}

impl Word {
    /// The letter before the one at an index; every "after" of the vowel rows asks for it.
    pub fn previous(&self, index: usize) -> Option<char> {
        Some(self.letters[index.checked_sub(1)?].letter)
    }

    pub fn next(&self, index: usize) -> Option<char> {
        Some(self.letters.get(index + 1)?.letter)
    }
}

/// The words of an accepted message.
pub fn words(msg: &[u8]) -> Vec<Word> {
    let mut words = Vec::new();
    let mut before = None;
    for word in msg.split_inclusive(|&byte| is_break(byte)) {
        words.push(Word {
            before,
            letters: letters(word),
        });
        before = word.last().and_then(|&byte| break_of(byte));
    }
    words
}

/// The letters of a word; marks are joined to their vowels, and a break at the end adds nothing.
fn letters(word: &[u8]) -> Vec<Letter> {
    let mut letters = Vec::with_capacity(word.len());
    for (index, &byte) in word.iter().enumerate() {
        if let Some(letter) = letter(byte) {
            let stressed = word.get(index + 1) == Some(&b'*');
            letters.push(Letter { letter, stressed });
        }
    }
    letters
}

fn break_of(byte: u8) -> Option<Break> {
    match symbol(byte) {
        Some(Symbol::Gap) => Some(Break::Gap),
        Some(Symbol::Pause) => Some(Break::Pause),
        _ => None,
    }
}

/// The places of all breaks, in order. The break with index `k` stands before word `k + 1`.
pub fn breaks(msg: &[u8]) -> Vec<usize> {
    (0..msg.len())
        .filter(|&place| is_break(msg[place]))
        .collect()
}
