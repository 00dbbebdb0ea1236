//! The library under test: the C interface of `include/govorun.h`, with slices in the place of
//! pointers and lengths.

use std::ops::Range;

use crate::edition::Edition;
use crate::refusals::Refusal;

/// The archive that is linked; `build.rs` finds it.
pub const ARCHIVE: &str = env!("GOVORUN_ARCHIVE");

/// `govorun_answer` of the header.
#[repr(C)]
#[derive(Clone, Copy, Debug, PartialEq, Eq)]
pub struct Answer {
    pub number: u32,
    pub place: u32,
    pub length: u32,
    pub live: u32,
}

/// `govorun_counts` of the header.
#[repr(C)]
#[derive(Clone, Copy, Debug, PartialEq, Eq)]
pub struct Counts {
    pub number: u32,
    pub place: u32,
    pub codes: u32,
    pub names: u32,
}

/// `govorun_text` of the header.
#[repr(C)]
#[derive(Clone, Copy, Debug, PartialEq, Eq)]
pub struct Text {
    pub number: u32,
    pub place: usize,
    pub length: usize,
}

/// `govorun_added` of the header.
#[repr(C)]
#[derive(Clone, Copy, Debug, PartialEq, Eq)]
pub struct Added {
    pub number: u32,
    pub place: usize,
    pub used: usize,
}

/// `govorun_found` of the header.
#[repr(C)]
#[derive(Clone, Copy, Debug, PartialEq, Eq)]
pub struct Found {
    pub number: u32,
    pub place: usize,
    pub found: u32,
    pub start: usize,
    pub length: usize,
}

/// The listeners by the numbers that the header gives them.
pub const PUMP: u32 = 0;
pub const ROAD: u32 = 1;
pub const DISPATCH: u32 = 2;
pub const LISTENERS: [u32; 3] = [PUMP, ROAD, DISPATCH];

/// The functions as the header declares them.
pub mod raw {
    use super::{Added, Answer, Counts, Found, Text};

    #[link(name = "capi", kind = "static")]
    extern "C" {
        pub fn govorun_edit(text: *const u8, len: usize, out: *mut u8, cap: usize) -> Text;
        pub fn govorun_read_utf8(text: *const u8, len: usize, out: *mut u8, cap: usize) -> Text;
        pub fn govorun_write_utf8(msg: *const u8, len: usize, out: *mut u8, cap: usize) -> Answer;
        pub fn govorun_check(msg: *const u8, len: usize) -> Counts;
        pub fn govorun_name(msg: *const u8, len: usize, out: *mut u8, cap: usize) -> Answer;
        pub fn govorun_transcribe(
            newer: bool,
            msg: *const u8,
            len: usize,
            out: *mut u8,
            cap: usize,
        ) -> Answer;
        pub fn govorun_join(
            newer: bool,
            msg: *const u8,
            len: usize,
            cuts: *const usize,
            n: usize,
            out: *mut u8,
            cap: usize,
        ) -> Answer;
        pub fn govorun_speak_level(level: i32, out: *mut u8, cap: usize) -> Answer;
        pub fn govorun_book_add(
            listener: u32,
            newer: bool,
            book: *mut u8,
            size: usize,
            used: usize,
            phrase: u16,
            set: u8,
            msg: *const u8,
            len: usize,
        ) -> Added;
        pub fn govorun_book_find(
            listener: u32,
            book: *const u8,
            size: usize,
            used: usize,
            phrase: u16,
        ) -> Found;
    }
}

pub fn edit(text: &[u8], out: &mut [u8]) -> Text {
    // SAFETY: a slice points to as many bytes as it says, and what is borrowed for writing overlaps
    // nothing else; so too below.
    unsafe { raw::govorun_edit(text.as_ptr(), text.len(), out.as_mut_ptr(), out.len()) }
}

pub fn read_utf8(text: &[u8], out: &mut [u8]) -> Text {
    // SAFETY: as above.
    unsafe { raw::govorun_read_utf8(text.as_ptr(), text.len(), out.as_mut_ptr(), out.len()) }
}

pub fn write_utf8(msg: &[u8], out: &mut [u8]) -> Answer {
    // SAFETY: as above.
    unsafe { raw::govorun_write_utf8(msg.as_ptr(), msg.len(), out.as_mut_ptr(), out.len()) }
}

pub fn check(msg: &[u8]) -> Counts {
    // SAFETY: as above.
    unsafe { raw::govorun_check(msg.as_ptr(), msg.len()) }
}

pub fn name(msg: &[u8], out: &mut [u8]) -> Answer {
    // SAFETY: as above.
    unsafe { raw::govorun_name(msg.as_ptr(), msg.len(), out.as_mut_ptr(), out.len()) }
}

/// What the interface calls an edition: whether it is the newer one.
pub fn newer(edition: Edition) -> bool {
    match edition {
        Edition::One => false,
        Edition::Two => true,
    }
}

pub fn transcribe(edition: Edition, msg: &[u8], out: &mut [u8]) -> Answer {
    let (start, cap) = (out.as_mut_ptr(), out.len());
    // SAFETY: as above.
    unsafe { raw::govorun_transcribe(newer(edition), msg.as_ptr(), msg.len(), start, cap) }
}

pub fn join(edition: Edition, msg: &[u8], cuts: &[usize], out: &mut [u8]) -> Answer {
    let newer = newer(edition);
    let (places, count) = (cuts.as_ptr(), cuts.len());
    let (start, cap) = (out.as_mut_ptr(), out.len());
    // SAFETY: as above.
    unsafe { raw::govorun_join(newer, msg.as_ptr(), msg.len(), places, count, start, cap) }
}

pub fn speak_level(level: i32, out: &mut [u8]) -> Answer {
    // SAFETY: as above.
    unsafe { raw::govorun_speak_level(level, out.as_mut_ptr(), out.len()) }
}

pub fn book_add(
    listener: u32,
    edition: Edition,
    book: &mut [u8],
    used: usize,
    phrase: u16,
    set: u8,
    msg: &[u8],
) -> Added {
    let newer = newer(edition);
    let (start, size) = (book.as_mut_ptr(), book.len());
    let (msg, len) = (msg.as_ptr(), msg.len());
    // SAFETY: as above.
    unsafe { raw::govorun_book_add(listener, newer, start, size, used, phrase, set, msg, len) }
}

pub fn book_find(listener: u32, book: &[u8], used: usize, phrase: u16) -> Found {
    // SAFETY: as above.
    unsafe { raw::govorun_book_find(listener, book.as_ptr(), book.len(), used, phrase) }
}

/// An answer of the library, to be held beside the expected one.
impl From<Answer> for crate::Answer {
    fn from(given: Answer) -> Self {
        crate::Answer {
            number: given.number,
            place: given.place as usize,
            length: given.length as usize,
            live: given.live as usize,
        }
    }
}

/// Editor and reader count no live cuts.
impl From<Text> for crate::Answer {
    fn from(given: Text) -> Self {
        crate::Answer {
            number: given.number,
            place: given.place,
            length: given.length,
            live: 0,
        }
    }
}

/// The expected answer of the check in the header's types.
impl From<Result<crate::Counts, Refusal>> for Counts {
    fn from(expected: Result<crate::Counts, Refusal>) -> Self {
        match expected {
            Ok(counts) => Counts {
                number: 0,
                place: 0,
                codes: narrow(counts.codes),
                names: narrow(counts.names),
            },
            Err(refusal) => Counts {
                number: refusal.number.into(),
                place: narrow(refusal.place),
                codes: 0,
                names: 0,
            },
        }
    }
}

/// The expected answer of an addition in the header's types.
impl From<Result<usize, Refusal>> for Added {
    fn from(expected: Result<usize, Refusal>) -> Self {
        match expected {
            Ok(used) => Added {
                number: 0,
                place: 0,
                used,
            },
            Err(refusal) => Added {
                number: refusal.number.into(),
                place: refusal.place,
                used: 0,
            },
        }
    }
}

/// The expected answer of a lookup in the header's types.
impl From<Result<Range<usize>, Refusal>> for Found {
    fn from(expected: Result<Range<usize>, Refusal>) -> Self {
        match expected {
            Ok(tape) => Found {
                number: 0,
                place: 0,
                found: 1,
                start: tape.start,
                length: tape.len(),
            },
            Err(refusal) => Found {
                number: refusal.number.into(),
                place: refusal.place,
                found: 0,
                start: 0,
                length: 0,
            },
        }
    }
}

fn narrow(number: usize) -> u32 {
    u32::try_from(number).expect("places and lengths are small")
}
