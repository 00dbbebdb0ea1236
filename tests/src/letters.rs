//! Section "Bytes of a message": what each byte stands for, and the classes of letters.
//!
//! A letter is held as its small Russian letter, so that the rules can be read beside the paper.

/// What a byte named by the paper stands for.
#[derive(Clone, Copy, Debug, PartialEq, Eq)]
pub enum Symbol {
    Letter(char),
    Stress,
    Gap,
    Pause,
}

/// The meaning of a byte, or nothing if the paper does not name it.
pub fn symbol(byte: u8) -> Option<Symbol> {
    match byte {
        b'*' => Some(Symbol::Stress),
        b' ' => Some(Symbol::Gap),
        b'#' => Some(Symbol::Pause),
        0xA8 | 0xB8 => Some(Symbol::Letter('ё')),
        0xC0..=0xDF => Some(Symbol::Letter(in_alphabet(byte - 0xC0))),
        0xE0..=0xFF => Some(Symbol::Letter(in_alphabet(byte - 0xE0))),
        _ => None,
    }
}

/// The letter at a position of the alphabet without ё; Unicode keeps the same order.
fn in_alphabet(position: u8) -> char {
    char::from_u32('а' as u32 + u32::from(position)).expect("32 letters stand after а")
}

/// The letter of a byte, if it is one.
pub fn letter(byte: u8) -> Option<char> {
    match symbol(byte) {
        Some(Symbol::Letter(letter)) => Some(letter),
        _ => None,
    }
}

pub fn is_break(byte: u8) -> bool {
    matches!(symbol(byte), Some(Symbol::Gap | Symbol::Pause))
}

/// Class T: consonants that are never soft.
pub fn is_always_hard(letter: char) -> bool {
    matches!(letter, 'ж' | 'ш' | 'ц')
}

/// Class P: consonants with a hard and a soft sound.
#[rustfmt::skip]
pub fn is_paired(letter: char) -> bool {
    matches!(
        letter,
        'б' | 'в' | 'г' | 'д' | 'з' | 'к' | 'л' | 'м' | 'н' | 'п' | 'р' | 'с' | 'т' | 'ф' | 'х'
    )
}

/// Class Q: consonants that are soft of themselves, and the glide.
pub fn is_always_soft(letter: char) -> bool {
    matches!(letter, 'ч' | 'щ' | 'й')
}

pub fn is_consonant(letter: char) -> bool {
    is_always_hard(letter) || is_paired(letter) || is_always_soft(letter)
}

pub fn is_sign(letter: char) -> bool {
    matches!(letter, 'ъ' | 'ь')
}

/// Class V1: vowels that leave the consonant before them hard.
pub fn is_plain_vowel(letter: char) -> bool {
    matches!(letter, 'а' | 'о' | 'у' | 'ы' | 'э')
}

/// Class V2: vowels that soften the consonant before them.
pub fn is_softening_vowel(letter: char) -> bool {
    matches!(letter, 'е' | 'ё' | 'и' | 'ю' | 'я')
}

pub fn is_vowel(letter: char) -> bool {
    is_plain_vowel(letter) || is_softening_vowel(letter)
}

/// The noise letters, which may gain or lose voice.
#[rustfmt::skip]
pub fn is_obstruent(letter: char) -> bool {
    matches!(
        letter,
        'б' | 'п' | 'в' | 'ф' | 'г' | 'к' | 'д' | 'т' | 'ж' | 'ш' | 'з' | 'с'
        | 'х' | 'ц' | 'ч' | 'щ'
    )
}
