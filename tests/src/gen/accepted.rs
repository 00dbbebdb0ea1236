//! Accepted messages of any length: real words, invented ones, and words made to meet a rule.

use super::{lexicon, Rng};
use crate::refusals::{MAX_BYTES, MAX_LETTERS};
use crate::text::cp1251;

const VOWELS: &[char] = &['а', 'о', 'у', 'ы', 'э', 'е', 'ё', 'и', 'ю', 'я'];
const SIGNS: &[char] = &['ъ', 'ь'];
#[rustfmt::skip]
const CONSONANTS: &[char] = &[
    'б', 'в', 'г', 'д', 'ж', 'з', 'й', 'к', 'л', 'м', 'н', 'п', 'р', 'с', 'т', 'ф', 'х', 'ц', 'ч',
    'ш', 'щ',
];
#[rustfmt::skip]
const OBSTRUENTS: &[&str] = &[
    "к", "с", "в", "б", "ж", "з", "д", "т", "г", "п", "ф", "х", "ц", "ч", "ш", "щ", "зь", "съ",
];
/// Clusters with a silent letter, and a few that only look like them.
#[rustfmt::skip]
const CLUSTERS: &[&str] = &[
    "стн", "стск", "нтск", "рдч", "рдц", "здн", "здц", "ндц", "ндс", "ндшт",
    "стк", "стс", "нтк", "нтс", "рдн", "здр", "здк", "ндш", "ндч", "ндшк", "тск", "стьн",
];

type Maker = fn(&mut Rng) -> String;
#[rustfmt::skip]
const MAKERS: &[Maker] = &[
    real, real, real, real, syllabic, syllabic, syllabic, with_cluster, with_cluster, one_obstruent,
    one_obstruent, one_obstruent, opening_i_or_e, opening_i_or_e, hushing_with_soft_sign,
    ending_in_hard_sign, o_after_sign, without_vowel, unmarked, with_many_marks, babble,
];

/// A random word that no row of the refusals fits.
pub fn word(rng: &mut Rng) -> Vec<u8> {
    let made = if rng.one_in(60) {
        longest(rng)
    } else {
        rng.pick(MAKERS)(rng)
    };
    cp1251(&capitalized(rng, &made))
}

/// An accepted message of exactly this length, which must not be 0. Now and then a chain of words
/// of one obstruent is put in: voice passes through such a chain from its end to its beginning.
pub fn message(rng: &mut Rng, length: usize) -> Vec<u8> {
    let mut msg = Vec::with_capacity(length);
    let mut chain = 0;
    loop {
        if chain > 0 {
            chain -= 1;
        } else if rng.one_in(15) {
            chain = rng.between(2, 8);
        }
        let made = if chain > 0 {
            cp1251(&one_obstruent(rng))
        } else {
            word(rng)
        };
        msg.extend(fitted(made, length - msg.len()));
        if msg.len() == length {
            return msg;
        }
        msg.push(rng.pick(b"     #"));
    }
}

/// The word cut so that it fills the room or leaves enough of it for a break and another word. The
/// beginning of a word is a word, since the refusals within a word look back only.
fn fitted(mut word: Vec<u8>, room: usize) -> Vec<u8> {
    word.truncate(room);
    if room - word.len() == 1 {
        word.pop();
        if word.is_empty() {
            return cp1251("ко");
        }
    }
    word
}

/// An accepted message; short ones are the most frequent, the longest allowed ones occur too.
pub fn message_of_any_length(rng: &mut Rng) -> Vec<u8> {
    let length = match rng.below(100) {
        0 => MAX_BYTES,
        1..=4 => rng.between(1, MAX_BYTES),
        5..=30 => rng.between(1, 300),
        _ => rng.between(1, 40),
    };
    message(rng, length)
}

/// The exact number of letters, the last of them no sign, so that any letter may come next.
pub fn stem(rng: &mut Rng, letters: usize) -> String {
    let mut made = String::new();
    for _ in 1..letters {
        push_random(rng, &mut made);
    }
    while letters_of(&made).len() < letters {
        let letter = next_letter(rng, &made);
        if !SIGNS.contains(&letter) {
            made.push(letter);
        }
    }
    made
}

/// A random letter that may come next in a word. It is never ъ after a vowel: no letter may
/// follow there, so the word could not grow further.
pub fn next_letter(rng: &mut Rng, word: &str) -> char {
    loop {
        let letter = match rng.below(10) {
            0 => rng.pick(SIGNS),
            1..=4 => rng.pick(VOWELS),
            _ => rng.pick(CONSONANTS),
        };
        let dead_end = letter == 'ъ' && word.trim_end_matches('*').ends_with(VOWELS);
        if may_follow(word, letter) && !dead_end {
            return letter;
        }
    }
}

pub fn random_vowel(rng: &mut Rng) -> char {
    rng.pick(VOWELS)
}

pub fn random_consonant(rng: &mut Rng) -> char {
    rng.pick(CONSONANTS)
}

pub fn random_sign(rng: &mut Rng) -> char {
    rng.pick(SIGNS)
}

fn letters_of(word: &str) -> Vec<char> {
    word.chars().filter(|&c| c != '*').collect()
}

/// Whether a letter may come next in a word, by the refusals 6 to 9.
fn may_follow(word: &str, letter: char) -> bool {
    let letters = letters_of(word);
    let mut backwards = letters.iter().rev();
    let (last, before) = (backwards.next(), backwards.next());
    let after_sign = last.is_some_and(|l| SIGNS.contains(l));
    if SIGNS.contains(&letter) {
        last.is_some() && !after_sign
    } else if VOWELS.contains(&letter) {
        !(after_sign && before.is_some_and(|l| VOWELS.contains(l)))
    } else {
        last != Some(&'ъ')
    }
}

fn push_random(rng: &mut Rng, word: &mut String) {
    let letter = next_letter(rng, word);
    word.push(letter);
    if VOWELS.contains(&letter) && rng.one_in(3) {
        word.push('*');
    }
}

fn real(rng: &mut Rng) -> String {
    rng.pick(lexicon::words()).to_lowercase()
}

/// Consonants, perhaps a sign, and a vowel.
fn syllable(rng: &mut Rng, stressed: bool) -> String {
    let mut made = String::new();
    for _ in 0..rng.pick(&[0, 1, 1, 1, 1, 2, 2, 3]) {
        made.push(rng.pick(CONSONANTS));
    }
    if !made.is_empty() && rng.one_in(8) {
        made.push(rng.pick(SIGNS));
    }
    made.push(rng.pick(VOWELS));
    if stressed {
        made.push('*');
    }
    made
}

/// Syllables with the stress on one of them, and perhaps consonants and a soft sign at the end.
fn syllabic(rng: &mut Rng) -> String {
    let count = rng.between(1, 5);
    let stressed = rng.below(count);
    let mut made: String = (0..count)
        .map(|index| syllable(rng, index == stressed))
        .collect();
    for _ in 0..rng.pick(&[0, 0, 1, 1, 2, 3]) {
        made.push(rng.pick(CONSONANTS));
    }
    if made.ends_with(CONSONANTS) && rng.one_in(4) {
        made.push('ь');
    }
    made
}

fn with_cluster(rng: &mut Rng) -> String {
    let stressed_first = rng.one_in(2);
    let first = syllable(rng, stressed_first);
    let cluster = rng.pick(CLUSTERS);
    let second = syllable(rng, !stressed_first);
    let again = if rng.one_in(3) {
        rng.pick(CLUSTERS)
    } else {
        ""
    };
    first + cluster + &second + again
}

fn one_obstruent(rng: &mut Rng) -> String {
    rng.pick(OBSTRUENTS).to_string()
}

fn opening_i_or_e(rng: &mut Rng) -> String {
    let opening = rng.pick(&["и", "и*", "э", "э*", "ий", "эх"]);
    let rest = if rng.one_in(4) {
        String::new()
    } else {
        syllabic(rng)
    };
    opening.to_string() + &rest
}

fn hushing_with_soft_sign(rng: &mut Rng) -> String {
    syllable(rng, true) + rng.pick(&["жь", "шь", "ць", "чь", "щь", "ж", "ш", "ц"])
}

fn ending_in_hard_sign(rng: &mut Rng) -> String {
    let mut made = syllable(rng, true);
    if !rng.one_in(5) {
        made.push(rng.pick(CONSONANTS));
    }
    made.push('ъ');
    made
}

/// о after ь, which gives it a glide, or after ъ, which gives it none; at any level.
fn o_after_sign(rng: &mut Rng) -> String {
    let stressed = rng.one_in(4);
    let mut made = syllable(rng, stressed);
    made.push(rng.pick(CONSONANTS));
    made.push(rng.pick(SIGNS));
    made.push_str(rng.pick(&["о", "о", "о*"]));
    if rng.one_in(2) {
        made.push_str(&syllabic(rng));
    }
    made
}

fn without_vowel(rng: &mut Rng) -> String {
    let count = rng.between(1, 6);
    let mut made: String = (0..count).map(|_| rng.pick(CONSONANTS)).collect();
    if rng.one_in(3) {
        made.push(rng.pick(SIGNS));
    }
    made
}

fn unmarked(rng: &mut Rng) -> String {
    let made = if rng.one_in(2) {
        real(rng)
    } else {
        syllabic(rng)
    };
    made.replace('*', "")
}

fn with_many_marks(rng: &mut Rng) -> String {
    let count = rng.between(2, 6);
    (0..count)
        .map(|_| {
            let stressed = rng.one_in(2);
            syllable(rng, stressed)
        })
        .collect()
}

/// Letters without any order but what the refusals ask for.
fn babble(rng: &mut Rng) -> String {
    let mut made = String::new();
    for _ in 0..rng.between(1, 12) {
        push_random(rng, &mut made);
    }
    made
}

/// A word with as many letters as allowed.
fn longest(rng: &mut Rng) -> String {
    stem(rng, MAX_LETTERS)
}

fn capitalized(rng: &mut Rng, word: &str) -> String {
    match rng.below(8) {
        0 => word.to_uppercase(),
        1 => {
            let mut letters = word.chars();
            let first = letters.next().into_iter().flat_map(char::to_uppercase);
            first.chain(letters).collect()
        }
        2 => {
            let mut changed = |c: char| match rng.one_in(2) {
                true => c.to_uppercase().to_string(),
                false => c.to_string(),
            };
            word.chars().map(&mut changed).collect()
        }
        _ => word.to_string(),
    }
}
