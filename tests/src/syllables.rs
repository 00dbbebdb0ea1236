//! Section "Pass 2, syllables".

use crate::letters::is_vowel;
use crate::message::Word;

/// The name of letters left over after the last vowel, or of a word without a vowel.
pub const INCOMPLETE: u8 = 7;

#[derive(Clone, Copy, Debug, PartialEq, Eq)]
pub enum Cover {
    Bare,
    Covered,
}

#[derive(Clone, Copy, Debug, PartialEq, Eq)]
pub enum Level {
    Stressed,
    First,
    Second,
}

/// A syllable with a vowel; `vowel` is the index of its vowel in the word, silent letters gone.
#[derive(Clone, Copy, Debug)]
pub struct Syllable {
    pub vowel: usize,
    pub cover: Cover,
    pub level: Level,
}

/// The syllables of a word that have a vowel.
pub fn syllables(word: &Word) -> Vec<Syllable> {
    let vowels = vowel_indices(word);
    let unmarked = !word.letters.iter().any(|letter| letter.stressed);
    (0..vowels.len())
        .map(|index| Syllable {
            vowel: vowels[index],
            cover: cover(&vowels, index),
            level: if unmarked {
                // A word without any mark has every vowel on the first level.
                Level::First
            } else {
                level(word, &vowels, index)
            },
        })
        .collect()
}

fn vowel_indices(word: &Word) -> Vec<usize> {
    (0..word.letters.len())
        .filter(|&index| is_vowel(word.letters[index].letter))
        .collect()
}

/// A syllable is bare if no letter stands between its vowel and the vowel or word start before.
fn cover(vowels: &[usize], index: usize) -> Cover {
    let start = if index == 0 { 0 } else { vowels[index - 1] + 1 };
    if vowels[index] == start {
        Cover::Bare
    } else {
        Cover::Covered
    }
}

/// The level of a vowel in a word with a mark.
fn level(word: &Word, vowels: &[usize], index: usize) -> Level {
    let stressed = |vowel: &usize| word.letters[*vowel].stressed;
    if stressed(&vowels[index]) {
        Level::Stressed
    } else if vowels.get(index + 1).is_some_and(stressed) {
        Level::First
    } else {
        Level::Second
    }
}

/// The names of a word's syllables in order, the incomplete one with them.
pub fn names_of(word: &Word) -> Vec<u8> {
    let mut names: Vec<u8> = syllables(word).iter().map(name).collect();
    let ends_in_vowel = word.letters.last().is_some_and(|l| is_vowel(l.letter));
    if !ends_in_vowel {
        names.push(INCOMPLETE);
    }
    names
}

fn name(syllable: &Syllable) -> u8 {
    match (syllable.cover, syllable.level) {
        (Cover::Covered, Level::Stressed) => 1,
        (Cover::Bare, Level::Stressed) => 2,
        (Cover::Covered, Level::First) => 3,
        (Cover::Bare, Level::First) => 4,
        (Cover::Covered, Level::Second) => 5,
        (Cover::Bare, Level::Second) => 6,
    }
}
