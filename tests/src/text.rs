//! Helpers between readable text and bytes.

use crate::letters::{symbol, Symbol};

/// The Windows-1251 bytes of a Russian text; ASCII stays as it is.
pub fn cp1251(text: &str) -> Vec<u8> {
    text.chars().map(byte).collect()
}

fn byte(character: char) -> u8 {
    match character {
        'а'..='я' => 0xE0 + (character as u32 - 'а' as u32) as u8,
        'А'..='Я' => 0xC0 + (character as u32 - 'А' as u32) as u8,
        'ё' => 0xB8,
        'Ё' => 0xA8,
        _ if character.is_ascii() => character as u8,
        _ => panic!("{character} is neither Russian nor ASCII"),
    }
}

/// Bytes as two hexadecimal digits each, with spaces between.
pub fn hex(bytes: &[u8]) -> String {
    let digits: Vec<String> = bytes.iter().map(|byte| format!("{byte:02X}")).collect();
    digits.join(" ")
}

/// A message as small letters for failure reports; bytes without a meaning as `<XX>`.
pub fn show(msg: &[u8]) -> String {
    let shown = |&byte: &u8| match symbol(byte) {
        Some(Symbol::Letter(letter)) => letter.to_string(),
        Some(_) => char::from(byte).to_string(),
        None => format!("<{byte:02X}>"),
    };
    msg.iter().map(shown).collect()
}
