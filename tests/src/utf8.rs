//! Request 2 of document 02, "Texts in UTF-8": the reader's rule and the writer's, with UTF-8 as
//! RFC 3629 has it.

use crate::refusals::Refusal;

/// The characters of one byte that are taken: mark, gap, pause and the marks of request 1.
const PLAIN: &[u8] = b"* #.,;:?!-()\"'";

/// What is read of a text, one byte for each character; or 13, at the first byte of the first
/// sequence that is malformed or means a character that is not taken.
pub fn read(text: &[u8]) -> Result<Vec<u8>, Refusal> {
    let mut read = Vec::new();
    let mut place = 0;
    while place < text.len() {
        let taken = first_taken(&text[place..]);
        let (byte, length) = taken.ok_or(Refusal::new(13, place))?;
        read.push(byte);
        place += length;
    }
    Ok(read)
}

/// An accepted message in UTF-8, its letters as they stand.
pub fn written(msg: &[u8]) -> Vec<u8> {
    msg.iter().flat_map(|&byte| sequence(byte)).collect()
}

/// The byte of the first character and the length of its sequence.
fn first_taken(text: &[u8]) -> Option<(u8, usize)> {
    let (character, length) = first_character(text)?;
    Some((byte_of(character)?, length))
}

/// The number in Unicode of the first character and the length of its sequence, unless that is
/// malformed. The first byte says how long it is and in which range the number must be: one from a
/// lower range has a shorter sequence, and that alone is right. Surrogates mean nothing.
fn first_character(text: &[u8]) -> Option<(u32, usize)> {
    let first = *text.first()?;
    let (length, bits, range) = match first {
        0x00..=0x7F => (1, first, 0..=0x7F),
        0xC0..=0xDF => (2, first & 0x1F, 0x80..=0x7FF),
        0xE0..=0xEF => (3, first & 0x0F, 0x800..=0xFFFF),
        0xF0..=0xF7 => (4, first & 0x07, 0x1_0000..=0x10_FFFF),
        _ => return None,
    };
    let mut number = u32::from(bits);
    for &byte in text.get(1..length)? {
        if byte & 0xC0 != 0x80 {
            return None;
        }
        number = number << 6 | u32::from(byte & 0x3F);
    }
    let is_surrogate = (0xD800..=0xDFFF).contains(&number);
    (range.contains(&number) && !is_surrogate).then_some((number, length))
}

/// The byte that a character becomes, if it is taken.
fn byte_of(character: u32) -> Option<u8> {
    match character {
        0x401 => Some(0xA8),
        0x451 => Some(0xB8),
        0x410..=0x44F => Some(0xC0 + (character - 0x410) as u8),
        _ => {
            let byte = u8::try_from(character).ok()?;
            PLAIN.contains(&byte).then_some(byte)
        }
    }
}

/// The sequence of the character that a byte of a message stands for.
fn sequence(byte: u8) -> Vec<u8> {
    let character = match byte {
        0xA8 => 0x401,
        0xB8 => 0x451,
        0xC0.. => 0x410 + u16::from(byte - 0xC0),
        _ => return vec![byte],
    };
    vec![
        0xC0 | (character >> 6) as u8,
        0x80 | (character & 0x3F) as u8,
    ]
}
