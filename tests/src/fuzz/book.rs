//! What a fuzzer's bytes stand for as a lent book, and what is then asked of it: the buffer's bytes
//! as they come, or phrases, of which a book is made that is sound unless one of them says
//! otherwise.

use super::written_cut;
use crate::book::{book, record, records, MARK};
use crate::book_trial::Lent;
use crate::edition::Edition;
use crate::gen::Rng;
use crate::unit::{DISPATCH, LISTENERS};

/// The longest tape of a phrase, in codes.
const LONGEST: usize = 15;

/// From this on, the first byte of a phrase says what is wrong with it.
const WRONG: u8 = 0xF0;

/// A message that is good, so that the book is looked at.
const GOOD: &[u8] = b"\xE0";

/// A lent buffer with its used count, a listener, the number of a phrase, and a set and a message to
/// be added under it.
#[derive(Debug, PartialEq, Eq)]
pub struct Asked {
    pub buffer: Vec<u8>,
    pub used: usize,
    pub listener: u32,
    pub phrase: u16,
    pub set: u8,
    pub msg: Vec<u8>,
}

impl Asked {
    /// A byte for the listener, two for the number, one for the set, three for the used count and
    /// two for the length of the buffer; then come the buffer and the message.
    pub fn as_it_comes(data: &[u8]) -> Self {
        let (head, rest) = data.split_first_chunk().unwrap_or((&[0; 9], &[]));
        let &[listener, number_low, number_high, set, ref used @ .., size_low, size_high] = head;
        let size = usize::from(u16::from_le_bytes([size_low, size_high]));
        let (buffer, msg) = rest.split_at(size.min(rest.len()));
        Asked {
            buffer: buffer.to_vec(),
            used: written_cut(used),
            listener: written_listener(listener),
            phrase: u16::from_le_bytes([number_low, number_high]),
            set,
            msg: msg.to_vec(),
        }
    }

    /// A byte for the listener, one for how far the number asked for is above the last one, one for
    /// the set, and one for how much of the buffer is behind the book. Then phrases: a byte for how
    /// far the number is above the one before, or for what is wrong; the set; the tape's length; the
    /// tape. The message is what is left after the phrase that is said to end the book.
    pub fn made(data: &[u8]) -> Self {
        let (head, mut rest) = data.split_first_chunk().unwrap_or((&[0; 4], &[]));
        let &[listener, above, set, free] = head;
        let (mut buffer, mut last) = (Vec::new(), 0_u16);
        while let Some((&[how, set, length], behind)) = rest.split_first_chunk() {
            rest = behind;
            if how == u8::MAX {
                break;
            }
            let (tape, behind) = rest.split_at(usize::from(length).min(LONGEST).min(rest.len()));
            rest = behind;
            last = last.saturating_add(match how {
                0..0x80 => how.into(),
                // So large that a few phrases reach the last number.
                0x80..WRONG => u16::from(how) << 7,
                WRONG.. => 1,
            });
            buffer.extend(damaged(record(last, set, tape), how));
        }
        let used = buffer.len();
        buffer.resize(used + free_bytes(free), MARK[0]);
        Asked {
            buffer,
            used,
            listener: written_listener(listener),
            phrase: last.wrapping_add(above.into()),
            set,
            msg: rest.to_vec(),
        }
    }

    /// Looks up the phrase, those beside it and one that the book has, for the listener and for one
    /// of the three; has the listener add the message in an edition, and dispatch too, and one that
    /// is good; and says what is wrong with the library's answers.
    pub fn compare(&self, rng: &mut Rng, edition: Edition) -> Result<(), String> {
        let lent = Lent::new(&self.buffer, self.used);
        let (phrase, set) = (self.phrase, self.set);
        let beside = [phrase.wrapping_sub(1), phrase.wrapping_add(1)];
        let another = rng.pick(&LISTENERS);
        for phrase in [phrase, beside[0], beside[1], self.known(rng)] {
            lent.lookup(self.listener, phrase).among_others(rng)?;
            lent.lookup(another, phrase).among_others(rng)?;
        }
        lent.addition(self.listener, edition, phrase, set, &self.msg)
            .among_others(rng)?;
        for msg in [&self.msg[..], GOOD] {
            let addition = lent.addition(DISPATCH, edition, phrase, set, msg);
            let (added, buffer) = addition.among_others(rng)?;
            if added.number == 0 {
                let after = Lent::new(&buffer, added.used);
                after.lookup(another, phrase).among_others(rng)?;
            }
        }
        Ok(())
    }

    /// The number of one of the phrases, or 0.
    fn known(&self, rng: &mut Rng) -> u16 {
        match records(book(&self.buffer, self.used)) {
            Ok(records) if !records.is_empty() => records[rng.below(records.len())].number,
            _ => 0,
        }
    }
}

/// How many bytes of the buffer are behind the book: each count up to the half, then so many that
/// the longest tape has room.
fn free_bytes(free: u8) -> usize {
    match free {
        0..0x80 => free.into(),
        0x80.. => 80 * usize::from(free - 0x7F),
    }
}

/// One of the three listeners or 3, with one more bit changed if the byte is not below 4: most
/// numbers that mean nobody would be a listener if they were cut to fewer bits.
fn written_listener(byte: u8) -> u32 {
    let low = u32::from(byte % 4);
    match byte / 4 {
        0 => low,
        far => low ^ 1_u32.rotate_left(far.into()),
    }
}

/// A record with what this byte says is wrong.
fn damaged(mut record: Vec<u8>, how: u8) -> Vec<u8> {
    match how {
        0xF0 => record[1] = 0x9E,
        0xF1 => record[0] = 0,
        0xF2 => record[2] = record[2].wrapping_sub(1),
        0xF3 => record[2] = record[2].wrapping_sub(2),
        0xF4 => record[3] = record[3].wrapping_sub(1),
        0xF5 => record[5] = record[5].wrapping_add(1),
        0xF6 => record[5] = record[5].wrapping_sub(1),
        0xF7 => record[6] = 1,
        0xF8 => record.swap(5, 6),
        0xF9 => drop(record.pop()),
        0xFA => record.truncate(6),
        0xFB => record.truncate(1),
        0xFC => drop(record.remove(4)),
        0xFD => record[1] = 0xA0,
        _ => {}
    }
    record
}
