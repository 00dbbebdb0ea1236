//! Bytes and strings without any sense.

use super::Rng;

/// Bytes that are all equally likely.
pub fn bytes(rng: &mut Rng, length: usize) -> Vec<u8> {
    (0..length).map(|_| rng.bits() as u8).collect()
}

/// A string over an alphabet; a small one meets the rules much more often than random bytes.
pub fn string(rng: &mut Rng, alphabet: &[u8], length: usize) -> Vec<u8> {
    (0..length).map(|_| rng.pick(alphabet)).collect()
}

/// A byte that the paper does not name.
pub fn foreign_byte(rng: &mut Rng) -> u8 {
    loop {
        let byte = rng.bits() as u8;
        if !matches!(byte, b' ' | b'#' | b'*' | 0xA8 | 0xB8 | 0xC0..=0xFF) {
            return byte;
        }
    }
}

/// Calls the visitor with every string over the alphabet that is no longer than `longest`.
pub fn every_string(alphabet: &[u8], longest: usize, visit: &mut dyn FnMut(&[u8])) {
    extend(&mut Vec::new(), alphabet, longest, visit);
}

fn extend(string: &mut Vec<u8>, alphabet: &[u8], left: usize, visit: &mut dyn FnMut(&[u8])) {
    visit(string);
    if left == 0 {
        return;
    }
    for &byte in alphabet {
        string.push(byte);
        extend(string, alphabet, left - 1, visit);
        string.pop();
    }
}
