//! Section "Pass 5, softness".

use crate::codes::{first_sound, softened, sound, Spoken};
use crate::letters::{is_paired, is_softening_vowel};
use crate::message::Word;

/// Softens the sounds of every word, from its last letter to its first, since a soft sound may
/// soften the one before it. Nothing passes from word to word.
pub fn palatalize(words: &[Word], spoken: &mut [Vec<Spoken>]) {
    for (word, letters) in words.iter().zip(spoken) {
        for index in (0..letters.len()).rev() {
            let next = first_sound(&letters[index + 1..]);
            if is_soft(word, index, next) {
                letters[index].sound = letters[index].sound.map(softened);
            }
        }
    }
}

fn is_soft(word: &Word, index: usize, next: Option<u8>) -> bool {
    let letter = word.letters[index].letter;
    is_paired(letter)
        && (softened_by_letter(word.next(index))
            || next.is_some_and(|sound| softened_by_sound(letter, sound)))
}

/// The first sentence: ь or a softening vowel comes next.
fn softened_by_letter(next: Option<char>) -> bool {
    next.is_some_and(|letter| letter == 'ь' || is_softening_vowel(letter))
}

/// The second sentence: the softness of the next sound spreads to this letter.
fn softened_by_sound(letter: char, next: u8) -> bool {
    match letter {
        'т' | 'д' | 'с' | 'з' => is_soft_dental(next),
        'н' => is_soft_dental(next) || is_soft_hushing(next),
        'б' | 'п' => next == sound!("Б'") || next == sound!("П'"),
        'в' | 'ф' => next == sound!("В'") || next == sound!("Ф'"),
        'г' | 'к' => next == sound!("Г'") || next == sound!("К'"),
        'х' => next == sound!("Х'") || next == sound!("Х1'"),
        'л' => next == sound!("Л'"),
        'м' => next == sound!("М'"),
        'р' => next == sound!("Р'"),
        _ => unreachable!("the letters of P are all named above"),
    }
}

fn is_soft_dental(sound: u8) -> bool {
    [
        sound!("Т'"),
        sound!("Д'"),
        sound!("С'"),
        sound!("З'"),
        sound!("Н'"),
    ]
    .contains(&sound)
}

/// The sounds of ч and щ, voiced or not.
fn is_soft_hushing(sound: u8) -> bool {
    [sound!("Ч"), sound!("Ч1"), sound!("Щ"), sound!("Ж'")].contains(&sound)
}
