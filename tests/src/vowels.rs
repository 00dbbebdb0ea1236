//! Section "Pass 3, vowels". Every function for a vowel is that vowel's row, entries in order.

use crate::codes::{sound, Spoken};
use crate::edition::Edition;
use crate::letters::{is_always_hard, is_always_soft, is_paired, is_sign};
use crate::message::{Break, Word};
use crate::syllables::{syllables, Cover, Level, Syllable};

/// Whether a hard boundary stands before the word with this index.
pub fn hard_boundary_before(words: &[Word], index: usize) -> bool {
    words[index].before == Some(Break::Gap) && ends_hard(&words[index - 1])
}

/// The word ends in T or P, or in ь right after T.
fn ends_hard(word: &Word) -> bool {
    let last = word.letters.len() - 1;
    match word.letters[last].letter {
        'ь' => word.previous(last).is_some_and(is_always_hard),
        letter => is_always_hard(letter) || is_paired(letter),
    }
}

/// What the rows ask about the surroundings of a vowel.
struct Setting {
    level: Level,
    initial: bool,
    after_always_soft: bool,
    after_always_hard: bool,
    initial_at_hard_boundary: bool,
}

/// The vowels of every word; the other letters stay without a sound until the voicing pass.
pub fn speak_vowels(edition: Edition, words: &[Word]) -> Vec<Vec<Spoken>> {
    (0..words.len())
        .map(|index| speak_word(edition, &words[index], hard_boundary_before(words, index)))
        .collect()
}

fn speak_word(edition: Edition, word: &Word, hard_boundary: bool) -> Vec<Spoken> {
    let mut spoken = vec![Spoken::default(); word.letters.len()];
    for syllable in syllables(word) {
        spoken[syllable.vowel] = speak_vowel(edition, word, &syllable, hard_boundary);
    }
    spoken
}

fn speak_vowel(edition: Edition, word: &Word, syllable: &Syllable, hard_boundary: bool) -> Spoken {
    let vowel = word.letters[syllable.vowel].letter;
    let previous = word.previous(syllable.vowel);
    let setting = Setting {
        level: syllable.level,
        initial: previous.is_none(),
        after_always_soft: previous.is_some_and(is_always_soft),
        after_always_hard: previous.is_some_and(is_always_hard),
        initial_at_hard_boundary: previous.is_none() && hard_boundary,
    };
    Spoken {
        glide: has_glide(vowel, syllable.cover, previous),
        sound: Some(in_edition(edition, vowel, quality(vowel, &setting))),
    }
}

/// Request 8 of document 02: what an edition makes of the sound that a vowel has in its row.
fn in_edition(edition: Edition, vowel: char, sound: u8) -> u8 {
    let is_moved = matches!(vowel, 'е' | 'я' | 'а') && sound == sound!("Э1");
    match edition {
        Edition::Two if is_moved => sound!("И1"),
        Edition::One | Edition::Two => sound,
    }
}

/// The paragraph below the rows, with request 4 of document 02: where a glide is put before the
/// vowel. The request names ь alone, so о after ъ has none.
fn has_glide(vowel: char, cover: Cover, previous: Option<char>) -> bool {
    let after_sign = previous.is_some_and(is_sign);
    match vowel {
        'е' | 'ё' | 'ю' | 'я' => cover == Cover::Bare || after_sign,
        'и' => after_sign,
        'о' => previous == Some('ь'),
        _ => false,
    }
}

fn quality(vowel: char, at: &Setting) -> u8 {
    match vowel {
        'а' => row_a(at),
        'о' => row_o(at),
        'у' | 'ю' => by_stress(at, sound!("У*"), sound!("У1")),
        'ы' => by_stress(at, sound!("Ы*"), sound!("Ы1")),
        'э' => row_e(at),
        'е' => row_ye(at),
        'ё' => sound!("О*"),
        'я' => row_ya(at),
        'и' => row_i(at),
        _ => unreachable!("a syllable is built on a vowel"),
    }
}

/// Rows with one sound for level S and one for the other two.
fn by_stress(at: &Setting, stressed: u8, unstressed: u8) -> u8 {
    match at.level {
        Level::Stressed => stressed,
        Level::First | Level::Second => unstressed,
    }
}

fn row_a(at: &Setting) -> u8 {
    match at.level {
        Level::Stressed => sound!("А*"),
        Level::First if at.after_always_soft => sound!("Э1"),
        Level::First => sound!("А1"),
        Level::Second if at.initial => sound!("А1"),
        Level::Second if at.after_always_soft => sound!("Э2"),
        Level::Second => sound!("А2"),
    }
}

fn row_o(at: &Setting) -> u8 {
    match at.level {
        Level::Stressed => sound!("О*"),
        Level::First => sound!("А1"),
        Level::Second if at.initial => sound!("А1"),
        Level::Second if at.after_always_soft => sound!("Э2"),
        Level::Second => sound!("А2"),
    }
}

fn row_e(at: &Setting) -> u8 {
    match at.level {
        Level::Stressed => sound!("Э*"),
        _ if at.initial_at_hard_boundary => sound!("Ы1"),
        Level::First => sound!("Э1"),
        Level::Second => sound!("Э2"),
    }
}

fn row_ye(at: &Setting) -> u8 {
    match at.level {
        Level::Stressed => sound!("Э*"),
        Level::First if at.after_always_hard => sound!("Ы1"),
        Level::First => sound!("Э1"),
        Level::Second if at.initial => sound!("Э1"),
        Level::Second if at.after_always_hard => sound!("А2"),
        Level::Second => sound!("Э2"),
    }
}

fn row_ya(at: &Setting) -> u8 {
    match at.level {
        Level::Stressed => sound!("А*"),
        Level::First => sound!("Э1"),
        Level::Second if at.initial => sound!("Э1"),
        Level::Second => sound!("Э2"),
    }
}

fn row_i(at: &Setting) -> u8 {
    if at.after_always_hard || at.initial_at_hard_boundary {
        by_stress(at, sound!("Ы*"), sound!("Ы1"))
    } else {
        by_stress(at, sound!("И*"), sound!("И1"))
    }
}
