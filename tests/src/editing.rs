//! Request 1 of document 02, "Plain punctuation": the edited form of a text.

use crate::letters::is_break;

/// The edited form of a text: its words as they are, and one break between neighbours.
pub fn edited(text: &[u8]) -> Vec<u8> {
    let turned: Vec<u8> = text.iter().map(|&byte| turned(byte)).collect();
    let alike = |&one: &u8, &next: &u8| is_break(one) == is_break(next);
    let mut edited = Vec::new();
    for run in between_ends(&turned).chunk_by(alike) {
        if is_break(run[0]) {
            edited.push(one_break(run));
        } else {
            edited.extend(run);
        }
    }
    edited
}

/// A mark of punctuation as a break; any other byte as it is.
fn turned(byte: u8) -> u8 {
    match byte {
        b'.' | b',' | b';' | b':' | b'?' | b'!' => b'#',
        b'-' | b'(' | b')' | b'"' | b'\'' => b' ',
        _ => byte,
    }
}

/// What stands from the first byte that is no break to the last such.
fn between_ends(text: &[u8]) -> &[u8] {
    let is_kept = |&byte: &u8| !is_break(byte);
    let first = text.iter().position(is_kept);
    let last = text.iter().rposition(is_kept);
    match (first, last) {
        (Some(first), Some(last)) => &text[first..=last],
        _ => &[],
    }
}

/// The break that a run of breaks becomes.
fn one_break(run: &[u8]) -> u8 {
    if run.contains(&b'#') {
        b'#'
    } else {
        b' '
    }
}
