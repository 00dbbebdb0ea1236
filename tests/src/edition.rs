//! Request 8 of document 02, "The newer reading": the two editions in which a tape is made. The
//! vowels tell where they part.

/// In which of the two readings a message is spoken.
#[derive(Clone, Copy, Debug, PartialEq, Eq)]
pub enum Edition {
    /// The present reading.
    One,
    /// The newer reading.
    Two,
}

pub const EDITIONS: [Edition; 2] = [Edition::One, Edition::Two];
