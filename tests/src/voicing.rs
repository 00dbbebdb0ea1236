//! Section "Pass 4, voice". Consonants get their hard sounds here; softness comes after.

use crate::codes::{first_sound, sound, Spoken};
use crate::letters::is_obstruent;
use crate::message::{Break, Word};

/// Set D: the sounds that make an obstruent before them voiced.
#[rustfmt::skip]
const VOICED: [u8; 14] = [
    sound!("Б"), sound!("Г"), sound!("Х1"), sound!("Д"), sound!("Ж"), sound!("З"), sound!("Ц1"),
    sound!("Ч1"),
    sound!("Б'"), sound!("Г'"), sound!("Х1'"), sound!("Д'"), sound!("Ж'"), sound!("З'"),
];

/// Set U: the sounds that make an obstruent before them voiceless.
#[rustfmt::skip]
const VOICELESS: [u8; 16] = [
    sound!("К"), sound!("П"), sound!("С"), sound!("Т"), sound!("Ф"), sound!("Х"),
    sound!("К'"), sound!("П'"), sound!("С'"), sound!("Т'"), sound!("Ф'"), sound!("Х'"),
    sound!("Ц"), sound!("Ч"), sound!("Ш"), sound!("Щ"),
];

/// Whether a sound is in set D.
pub fn makes_voiced(sound: u8) -> bool {
    VOICED.contains(&sound)
}

/// Whether a sound is in set U.
pub fn makes_voiceless(sound: u8) -> bool {
    VOICELESS.contains(&sound)
}

/// Gives every consonant its hard sound, from the last letter of the message to the first: the
/// answer for a letter needs the sound after it, and that may stand in the next word.
pub fn voice(words: &[Word], spoken: &mut [Vec<Spoken>]) {
    for index in (0..words.len()).rev() {
        let next_word = next_word_sound(words, spoken, index);
        for letter in (0..words[index].letters.len()).rev() {
            let within = first_sound(&spoken[index][letter + 1..]);
            let consonant = consonant_sound(words[index].letters[letter].letter, within, next_word);
            if consonant.is_some() {
                spoken[index][letter].sound = consonant;
            }
        }
    }
}

/// The first sound of the next word, if that word is in the same phrase.
fn next_word_sound(words: &[Word], spoken: &[Vec<Spoken>], index: usize) -> Option<u8> {
    let next = words.get(index + 1)?;
    if next.before == Some(Break::Gap) {
        first_sound(&spoken[index + 1])
    } else {
        None
    }
}

/// The hard sound of a consonant; nothing for a sign, or for a vowel, which has its sound already.
fn consonant_sound(letter: char, within: Option<u8>, next_word: Option<u8>) -> Option<u8> {
    match letter {
        'л' => Some(sound!("Л")),
        'м' => Some(sound!("М")),
        'н' => Some(sound!("Н")),
        'р' => Some(sound!("Р")),
        'й' => Some(sound!("J")),
        _ if is_obstruent(letter) => Some(obstruent_sound(letter, within, next_word)),
        _ => None,
    }
}

fn obstruent_sound(letter: char, within: Option<u8>, next_word: Option<u8>) -> u8 {
    match (within, next_word) {
        (Some(next), _) if makes_voiced(next) => voiced(letter),
        (Some(next), _) if makes_voiceless(next) => voiceless(letter),
        (Some(_), _) => as_written(letter),
        (None, Some(next)) if makes_voiced(next) => voiced(letter),
        (None, _) => voiceless(letter),
    }
}

fn voiced(letter: char) -> u8 {
    match letter {
        'б' | 'п' => sound!("Б"),
        'в' | 'ф' => sound!("В"),
        'г' | 'к' => sound!("Г"),
        'д' | 'т' => sound!("Д"),
        'ж' | 'ш' => sound!("Ж"),
        'з' | 'с' => sound!("З"),
        'х' => sound!("Х1"),
        'ц' => sound!("Ц1"),
        'ч' => sound!("Ч1"),
        'щ' => sound!("Ж'"),
        _ => unreachable!("only obstruents have voice to gain"),
    }
}

fn voiceless(letter: char) -> u8 {
    match letter {
        'б' | 'п' => sound!("П"),
        'в' | 'ф' => sound!("Ф"),
        'г' | 'к' => sound!("К"),
        'д' | 'т' => sound!("Т"),
        'ж' | 'ш' => sound!("Ш"),
        'з' | 'с' => sound!("С"),
        'х' => sound!("Х"),
        'ц' => sound!("Ц"),
        'ч' => sound!("Ч"),
        'щ' => sound!("Щ"),
        _ => unreachable!("only obstruents have voice to lose"),
    }
}

fn as_written(letter: char) -> u8 {
    match letter {
        'б' | 'в' | 'г' | 'д' | 'ж' | 'з' => voiced(letter),
        _ => voiceless(letter),
    }
}
