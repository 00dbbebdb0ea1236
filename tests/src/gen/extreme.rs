//! Accepted messages of about the greatest length that ask the most of the unit.

use super::{message, Rng};
use crate::refusals::MAX_BYTES;
use crate::text::cp1251;

/// The longest tape, the most words, the longest words, the longest chains of voice and softness,
/// the most marks, silent letters and glides after signs; and random messages.
pub fn extreme_messages(rng: &mut Rng, random: usize) -> Vec<Vec<u8>> {
    let mut messages = vec![
        repeated(&"я".repeat(64), 63),
        repeated("к", 2048),
        repeated("и", 2048),
        ending_in(repeated("к", 2046), " ба"),
        ending_in(repeated(&"з".repeat(64), 62), " ба"),
        ending_in(repeated(&"т".repeat(64), 62), " дья"),
        repeated(&("н".repeat(63) + "е"), 63),
        repeated(&"а*".repeat(31), 65),
        repeated(&"а*".repeat(64), 31),
        repeated("стн", 1024),
        repeated(&("дьо".repeat(21) + "к"), 63),
        repeated(&("дьо*".repeat(21) + "к"), 47),
        repeated("жь и", 800),
    ];
    messages.extend((0..random).map(|_| message(rng, MAX_BYTES)));
    messages
}

fn repeated(word: &str, count: usize) -> Vec<u8> {
    cp1251(&vec![word; count].join(" "))
}

fn ending_in(mut msg: Vec<u8>, end: &str) -> Vec<u8> {
    msg.extend(cp1251(end));
    msg
}
