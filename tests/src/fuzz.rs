//! What a fuzzer's bytes stand for: an edition, a list of cuts and a message, or a text in its
//! place; the first bytes of that are levels, too, and all of them books. `fuzz/` of the project
//! has the target.

pub mod book;

use crate::editing::edited;
use crate::edition::Edition;
use crate::gen::Rng;
use crate::message::breaks;
use crate::text::hex;
use crate::trial::{self, Operation, Trial};
use crate::{read_utf8, write_utf8};
use book::Asked;

/// How many bytes a cut that is written out takes.
const WRITTEN: usize = 3;

/// What is below this, with either sign, is within the range of levels or close to it.
const CLOSE: i32 = 10_100;

/// This bit of the first byte asks for edition 2.
const NEWER: u8 = 0x10;

/// An edition, a list of cuts and a message, on which the library and the paper are compared.
#[derive(Debug, PartialEq, Eq)]
pub struct Input<'a> {
    pub edition: Edition,
    pub cuts: Vec<usize>,
    pub msg: &'a [u8],
}

impl<'a> Input<'a> {
    /// The first byte says how the cuts are made: none, all breaks, those that the bits of the
    /// second byte choose, or those and then up to four that are written out, good or bad. One of
    /// its bits chooses the edition. The message is what is left. So most changes of a byte keep
    /// either the message or a good list.
    pub fn of(data: &'a [u8]) -> Self {
        let (&[how, bits], rest) = data.split_first_chunk().unwrap_or((&[0, 0], &[]));
        let edition = match how & NEWER {
            0 => Edition::One,
            _ => Edition::Two,
        };
        let (bits, count) = match how % 4 {
            0 => (0, 0),
            1 => (u8::MAX, 0),
            2 => (bits, 0),
            _ => (bits, 1 + how / 4 % 4),
        };
        let length = WRITTEN * usize::from(count);
        let (written, msg) = rest.split_at(length.min(rest.len()));
        let mut cuts = chosen_breaks(msg, bits);
        cuts.extend(written.chunks_exact(WRITTEN).map(written_cut));
        Input { edition, cuts, msg }
    }

    /// The level that the first four bytes of the message make, the low one first and 0 for those
    /// that are missing; and, if that is far outside the range, one that is not.
    pub fn levels(&self) -> [i32; 2] {
        let mut bytes = [0; 4];
        for (byte, &first) in bytes.iter_mut().zip(self.msg) {
            *byte = first;
        }
        let level = i32::from_le_bytes(bytes);
        [level, level % CLOSE]
    }

    /// Tries all operations, reader and writer too, and says what is wrong with the library's answer.
    /// If the editor changes the message, or if it is a text in UTF-8, what it becomes is tried as
    /// well, cut at every break; and if it is written, that is read back. Both levels are spoken, and
    /// both books asked.
    pub fn compare(&self, rng: &mut Rng) -> Result<(), String> {
        compare(rng, self.edition, self.msg, &self.cuts)?;
        self.compare_made(rng, &edited(self.msg))?;
        if let Ok(read) = read_utf8(self.msg, usize::MAX) {
            self.compare_made(rng, &edited(&read))?;
        }
        if let Ok(written) = write_utf8(self.msg, usize::MAX) {
            compare_read(rng, &written, self.msg)?;
        }
        let mut levels = self.levels().map(Operation::SpeakLevel).into_iter();
        levels.try_for_each(|level| trial::with_any_output(rng, level, &[]))?;
        let books = [Asked::as_it_comes(self.msg), Asked::made(self.msg)];
        let mut books = books.iter();
        books.try_for_each(|asked| asked.compare(rng, self.edition))
    }

    /// Tries what the message becomes, if that is another.
    fn compare_made(&self, rng: &mut Rng, made: &[u8]) -> Result<(), String> {
        if made == self.msg {
            return Ok(());
        }
        compare(rng, self.edition, made, &breaks(made))
    }
}

/// What was written of a message must be read as the message.
fn compare_read(rng: &mut Rng, written: &[u8], msg: &[u8]) -> Result<(), String> {
    let trial = Trial::new(Operation::ReadUtf8, written);
    trial.with_output(rng, msg.len())?;
    match trial.whole() {
        Ok((read, _)) if read == msg => Ok(()),
        whole => Err(format!("{whole:?} is read back of {}", hex(msg))),
    }
}

fn compare(rng: &mut Rng, edition: Edition, msg: &[u8], cuts: &[usize]) -> Result<(), String> {
    trial::once(rng, edition, msg, cuts)
        .map_err(|difference| format!("{difference}\ncuts, hexadecimal: {cuts:X?}"))
}

/// The breaks whose bits are set; the bits come again for each eight breaks.
fn chosen_breaks(msg: &[u8], bits: u8) -> Vec<usize> {
    let is_chosen = |index: usize| bits >> (index % 8) & 1 == 1;
    let breaks = breaks(msg).into_iter().enumerate();
    breaks
        .filter_map(|(index, place)| is_chosen(index).then_some(place))
        .collect()
}

/// A place from two bytes, below 0 from the upper half, with one more bit changed if the third byte
/// is not 0: huge cuts look like good ones to a narrower number.
fn written_cut(bytes: &[u8]) -> usize {
    let place = i16::from_le_bytes([bytes[0], bytes[1]]) as usize;
    match bytes[2] {
        0 => place,
        far => place ^ 1_usize.rotate_left(far.into()),
    }
}

/// A generator for the lengths and contents of the outputs, the same for the same bytes.
pub fn rng(data: &[u8]) -> Rng {
    let mixed = |seed: u64, &byte: &u8| (seed ^ u64::from(byte)).wrapping_mul(0x0100_0000_01B3);
    Rng::new(data.iter().fold(0xCBF2_9CE4_8422_2325, mixed))
}
