//! One lookup in a lent book, or one addition to it, by the library beside what the papers ask: the
//! answer, and every byte of the buffer and around it.

use crate::book::{self, Listener};
use crate::edition::Edition;
use crate::gen::Rng;
use crate::placed::Placed;
use crate::text::hex;
use crate::unit::{self, Added, Found};

/// A lent buffer, and the used count that says how much of it is the book.
#[derive(Clone, Copy, Debug)]
pub struct Lent<'a> {
    pub buffer: &'a [u8],
    pub used: usize,
}

impl<'a> Lent<'a> {
    pub fn new(buffer: &'a [u8], used: usize) -> Self {
        Lent { buffer, used }
    }

    /// All bytes of a buffer as a book.
    pub fn whole(buffer: &'a [u8]) -> Self {
        Lent::new(buffer, buffer.len())
    }

    /// The lookup of a phrase by a listener, with the answer that the papers ask for.
    pub fn lookup(self, listener: u32, phrase: u16) -> Lookup<'a> {
        let found = book::find(Listener::of(listener), self.buffer, self.used, phrase);
        Lookup {
            lent: self,
            listener,
            phrase,
            answer: found.into(),
        }
    }

    /// The addition of a message in an edition by a listener, with the answer that the papers ask
    /// for.
    pub fn addition(
        self,
        listener: u32,
        edition: Edition,
        phrase: u16,
        set: u8,
        msg: &'a [u8],
    ) -> Addition<'a> {
        let mut after = self.buffer.to_vec();
        let by = Listener::of(listener);
        let answer = book::add(by, edition, &mut after, self.used, phrase, set, msg).into();
        Addition {
            lent: self,
            listener,
            edition,
            phrase,
            set,
            msg,
            answer,
            after,
        }
    }

    fn told(self, wrong: &str) -> String {
        let (size, used) = (self.buffer.len(), self.used);
        format!("{wrong}\n{used} used of {size}: {}", hex(self.buffer))
    }
}

pub struct Lookup<'a> {
    lent: Lent<'a>,
    listener: u32,
    phrase: u16,
    answer: Found,
}

impl Lookup<'_> {
    /// Tries the lookup with other bytes on both sides of the buffer.
    pub fn among_others(&self, rng: &mut Rng) -> Result<Found, String> {
        let placed = Placed::copy(rng, self.lent.buffer);
        let memory = placed.memory_with(self.lent.buffer);
        self.in_place(placed.bytes())?;
        placed.is(&memory).map_err(|change| self.told(&change))?;
        Ok(self.answer)
    }

    /// Tries the lookup on this copy of the buffer.
    pub fn in_place(&self, buffer: &[u8]) -> Result<Found, String> {
        let (expected, used) = (self.answer, self.lent.used);
        let given = unit::book_find(self.listener, buffer, used, self.phrase);
        if given != expected {
            return Err(self.told(&format!("gives {given:?} for {expected:?}")));
        }
        if buffer != self.lent.buffer {
            return Err(self.told("changes the buffer"));
        }
        Ok(given)
    }

    fn told(&self, wrong: &str) -> String {
        let (listener, phrase) = (self.listener, self.phrase);
        let wrong = format!("the lookup of {phrase} by {listener} {wrong}");
        self.lent.told(&wrong)
    }
}

pub struct Addition<'a> {
    lent: Lent<'a>,
    listener: u32,
    edition: Edition,
    phrase: u16,
    set: u8,
    msg: &'a [u8],
    answer: Added,
    after: Vec<u8>,
}

impl Addition<'_> {
    /// Tries the addition with other bytes on both sides of buffer and message; gives the buffer
    /// afterwards, too.
    pub fn among_others(self, rng: &mut Rng) -> Result<(Added, Vec<u8>), String> {
        let msg = Placed::copy(rng, self.msg);
        let mut placed = Placed::copy(rng, self.lent.buffer);
        let memory = placed.memory_with(&self.after);
        self.in_place(msg.bytes(), placed.bytes_mut())?;
        placed.is(&memory).map_err(|change| self.told(&change))?;
        Ok((self.answer, self.after))
    }

    /// Tries the addition of this copy of the message to this copy of the buffer.
    pub fn in_place(&self, msg: &[u8], buffer: &mut [u8]) -> Result<Added, String> {
        let (expected, used) = (self.answer, self.lent.used);
        let (listener, edition) = (self.listener, self.edition);
        let given = unit::book_add(listener, edition, buffer, used, self.phrase, self.set, msg);
        if given != expected {
            return Err(self.told(&format!("gives {given:?} for {expected:?}")));
        }
        if buffer != self.after {
            let (left, after) = (hex(buffer), hex(&self.after));
            return Err(self.told(&format!("leaves {left}\nfor {after}")));
        }
        if msg != self.msg {
            return Err(self.told("changes the message"));
        }
        Ok(given)
    }

    fn told(&self, wrong: &str) -> String {
        let (listener, phrase, set) = (self.listener, self.phrase, self.set);
        let what = format!("the addition of {phrase} for the set {set:#04X} by {listener}");
        let what = format!("{what} in edition {:?}", self.edition);
        let wrong = format!("{what} {wrong}\nmessage: {}", hex(self.msg));
        self.lent.told(&wrong)
    }
}
