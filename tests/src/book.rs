//! Requests 6 and 7 of document 02, "A phrase book" and "Who may hear what": taped phrases, one
//! record after another, in the first part of a lent buffer, each for a set of listeners. By
//! request 8 each is taped in one of two editions, which its record does not say.

use std::ops::Range;

use crate::edition::Edition;
use crate::refusals::Refusal;
use crate::tape;

/// What a record begins with.
pub const MARK: [u8; 2] = [0x52, 0x9F];

/// How many bytes of a record stand before its tape: mark, number, set and length.
pub const HEAD: usize = 7;

/// Who looks a phrase up, or adds one.
#[derive(Clone, Copy, Debug, PartialEq, Eq)]
pub enum Listener {
    Pump,
    Road,
    Dispatch,
}

impl Listener {
    /// The one that a call in C means by a number. Most numbers mean none of the three.
    pub fn of(number: u32) -> Option<Self> {
        match number {
            0 => Some(Listener::Pump),
            1 => Some(Listener::Road),
            2 => Some(Listener::Dispatch),
            _ => None,
        }
    }

    /// Whether a set has this one among its listeners. Five of its bits stand for nobody.
    pub fn is_in(self, set: u8) -> bool {
        let own = match self {
            Listener::Pump => 0b001,
            Listener::Road => 0b010,
            Listener::Dispatch => 0b100,
        };
        set & own != 0
    }
}

/// A phrase that a book holds: its number, who may hear it, and where in the book the tape lies.
#[derive(Clone, Debug, PartialEq, Eq)]
pub struct Record {
    pub number: u16,
    pub set: u8,
    pub tape: Range<usize>,
}

/// The book in a buffer: as many of its first bytes as are used, and all if that is more.
pub fn book(buffer: &[u8], used: usize) -> &[u8] {
    &buffer[..used.min(buffer.len())]
}

/// All records up to the book's end. The first that is wrong is refused at its start: with 15 if it
/// is no whole record, else with 16 if its number is not above that of the record before.
pub fn records(book: &[u8]) -> Result<Vec<Record>, Refusal> {
    let mut records: Vec<Record> = Vec::new();
    let mut start = 0;
    while start < book.len() {
        let record = record_at(book, start).ok_or(Refusal::new(15, start))?;
        if !rises(&records, record.number) {
            return Err(Refusal::new(16, start));
        }
        start = record.tape.end;
        records.push(record);
    }
    Ok(records)
}

/// Whether a number may come after these records. Any may be the first.
fn rises(records: &[Record], number: u16) -> bool {
    records.last().is_none_or(|last| number > last.number)
}

/// The record that starts here, unless it has no mark or the book ends before it does.
fn record_at(book: &[u8], start: usize) -> Option<Record> {
    let (head, rest) = book[start..].split_first_chunk::<HEAD>()?;
    let [mark @ .., number_low, number_high, set, length_low, length_high] = *head;
    let number = u16::from_le_bytes([number_low, number_high]);
    let length = usize::from(u16::from_le_bytes([length_low, length_high]));
    let first = start + HEAD;
    let tape = first..first + length;
    (mark == MARK && length <= rest.len()).then_some(Record { number, set, tape })
}

/// The bytes of a record with this number, set and tape.
pub fn record(number: u16, set: u8, tape: &[u8]) -> Vec<u8> {
    let length = u16::try_from(tape.len()).expect("two bytes hold a tape's length");
    let (number, length) = (number.to_le_bytes(), length.to_le_bytes());
    [&MARK[..], &number, &[set], &length, tape].concat()
}

/// The lookup by a listener, or by nobody: where the tape of a phrase lies. The book must be sound
/// to its end; then 17 says that there is no such phrase among those that the listener may hear.
pub fn find(
    listener: impl Into<Option<Listener>>,
    buffer: &[u8],
    used: usize,
    phrase: u16,
) -> Result<Range<usize>, Refusal> {
    let records = records(book(buffer, used))?;
    let listener = listener.into();
    let is_heard = |record: &Record| listener.is_some_and(|listener| listener.is_in(record.set));
    let mut heard = records.into_iter().filter(is_heard);
    let wanted = heard.find(|record| record.number == phrase);
    wanted.map(|record| record.tape).ok_or(Refusal::new(17, 0))
}

/// The addition by a listener, or by nobody: puts a record with the set and the message's tape, in
/// an edition, behind the book and gives the new used count. All but dispatch are refused before
/// anything is looked at. Then comes what is wrong with the message, then what is wrong with the
/// book, then that the number does not rise, and last that the buffer has no room; a refusal leaves
/// the buffer.
pub fn add(
    listener: impl Into<Option<Listener>>,
    edition: Edition,
    buffer: &mut [u8],
    used: usize,
    phrase: u16,
    set: u8,
    msg: &[u8],
) -> Result<usize, Refusal> {
    if listener.into() != Some(Listener::Dispatch) {
        return Err(Refusal::new(17, 0));
    }
    let tape = tape(edition, msg, usize::MAX)?;
    let book = book(buffer, used);
    let end = book.len();
    if !rises(&records(book)?, phrase) {
        return Err(Refusal::new(16, end));
    }
    let record = record(phrase, set, &tape);
    let new_end = end + record.len();
    let room = buffer.get_mut(end..new_end);
    room.ok_or(Refusal::new(11, new_end))?
        .copy_from_slice(&record);
    Ok(new_end)
}
