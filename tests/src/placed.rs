//! Bytes at any address, odd ones too, with random bytes on both sides that must stay.

use crate::gen::{noise, Rng};

/// How many bytes are watched on each side of the placed ones.
const GUARD: usize = 64;

pub struct Placed {
    memory: Vec<u8>,
    start: usize,
    length: usize,
}

impl Placed {
    /// Room for so many bytes; they hold a random pattern.
    pub fn room(rng: &mut Rng, length: usize) -> Self {
        let content = noise::bytes(rng, length);
        Placed::copy(rng, &content)
    }

    pub fn copy(rng: &mut Rng, content: &[u8]) -> Self {
        let start = GUARD + rng.below(16);
        let [before, after] = [start, GUARD].map(|length| noise::bytes(rng, length));
        Placed {
            memory: [&before, content, &after].concat(),
            start,
            length: content.len(),
        }
    }

    pub fn bytes(&self) -> &[u8] {
        &self.memory[self.start..][..self.length]
    }

    pub fn bytes_mut(&mut self) -> &mut [u8] {
        &mut self.memory[self.start..][..self.length]
    }

    /// The memory, guards too, as it must be once the bytes are these.
    pub fn memory_with(&self, content: &[u8]) -> Vec<u8> {
        let (before, after) = (
            &self.memory[..self.start],
            &self.memory[self.start + self.length..],
        );
        [before, content, after].concat()
    }

    /// Says which byte is the first to differ from the memory that is expected, if one does.
    pub fn is(&self, expected: &[u8]) -> Result<(), String> {
        if self.memory == expected {
            return Ok(());
        }
        let differs = |&index: &usize| self.memory[index] != expected[index];
        let first = (0..expected.len()).find(differs).unwrap_or(0);
        let index = first as isize - self.start as isize;
        let length = self.length;
        Err(format!("changes the byte at {index} of {length} lent ones"))
    }
}
