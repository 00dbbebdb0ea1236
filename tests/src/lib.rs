//! A second implementation of document 01 and of requests 1, 2 and 4 to 8 of document 02, written
//! from the papers for comparison. It says what each operation must answer; it is plain rather
//! than fast.
//!
//! The modules follow the papers: letters, refusals, the five passes, codes, joints; then editing,
//! UTF-8, spoken levels, the book and the editions. Beside them stand `gen` with the messages to
//! try, `unit`, `program` and `example` with the library and the programs under test, and what
//! holds them to each other: `trial` and `book_trial`, and `agreed` for the tests.

pub mod agreed;
pub mod answers;
pub mod book;
pub mod book_trial;
pub mod codes;
pub mod demand3;
pub mod editing;
pub mod edition;
pub mod elision;
pub mod example;
pub mod fence;
pub mod fuzz;
pub mod gen;
pub mod input;
pub mod joints;
pub mod letters;
pub mod message;
pub mod palatalization;
pub mod placed;
pub mod program;
pub mod refusals;
pub mod spoken_levels;
pub mod syllables;
pub mod text;
pub mod transcription;
pub mod trial;
pub mod unit;
pub mod utf8;
pub mod voicing;
pub mod vowels;

pub use answers::{expected_level, expected_print, expected_speech, Answer};
pub use codes::spell;
pub use edition::{Edition, EDITIONS};
pub use refusals::Refusal;
pub use text::{cp1251, hex, show};

use refusals::first_refusal;

/// How long the answers for an accepted message are.
#[derive(Clone, Copy, Debug, PartialEq, Eq)]
pub struct Counts {
    pub codes: usize,
    pub names: usize,
}

/// What the joiner gives.
#[derive(Clone, Debug, PartialEq, Eq)]
pub struct Joined {
    pub tape: Vec<u8>,
    pub live: usize,
}

/// The editor with an output of `cap` bytes.
pub fn edit(text: &[u8], cap: usize) -> Result<Vec<u8>, Refusal> {
    fit(editing::edited(text), cap)
}

/// The reader of UTF-8 with an output of `cap` bytes.
pub fn read_utf8(text: &[u8], cap: usize) -> Result<Vec<u8>, Refusal> {
    fit(utf8::read(text)?, cap)
}

/// The writer of UTF-8 with an output of `cap` bytes.
pub fn write_utf8(msg: &[u8], cap: usize) -> Result<Vec<u8>, Refusal> {
    accept(msg)?;
    fit(utf8::written(msg), cap)
}

/// The speaker of levels with an output of `cap` bytes.
pub fn speak_level(level: i32, cap: usize) -> Result<Vec<u8>, Refusal> {
    fit(spoken_levels::spoken(level)?, cap)
}

/// The message check: refusals 1 to 10, or the lengths of the answers. It names no edition, since
/// the tapes of both are equally long.
pub fn check(msg: &[u8]) -> Result<Counts, Refusal> {
    accept(msg)?;
    let codes = transcription::transcribe(Edition::One, msg).len();
    let names = transcription::syllable_names(msg).len();
    Ok(Counts { codes, names })
}

/// The naming operation with an output of `cap` bytes.
pub fn names(msg: &[u8], cap: usize) -> Result<Vec<u8>, Refusal> {
    accept(msg)?;
    fit(transcription::syllable_names(msg), cap)
}

/// The transcriber with an output of `cap` bytes.
pub fn tape(edition: Edition, msg: &[u8], cap: usize) -> Result<Vec<u8>, Refusal> {
    accept(msg)?;
    fit(transcription::transcribe(edition, msg), cap)
}

/// The joiner with an output of `cap` bytes.
pub fn join(edition: Edition, msg: &[u8], cuts: &[usize], cap: usize) -> Result<Joined, Refusal> {
    accept(msg)?;
    if let Some(refusal) = joints::bad_cut(msg, cuts) {
        return Err(refusal);
    }
    let tape = fit(joints::second_tape(edition, msg, cuts), cap)?;
    let live_places = joints::live_places(edition, msg);
    let is_live = |cut: &&usize| live_places.binary_search(cut).is_ok();
    Ok(Joined {
        tape,
        live: cuts.iter().filter(is_live).count(),
    })
}

fn accept(msg: &[u8]) -> Result<(), Refusal> {
    first_refusal(msg).map_or(Ok(()), Err)
}

/// Row 11 of the refusals: the answer must fit the lent output; the place is its full length.
fn fit(answer: Vec<u8>, cap: usize) -> Result<Vec<u8>, Refusal> {
    if answer.len() > cap {
        let place = answer.len();
        return Err(Refusal { number: 11, place });
    }
    Ok(answer)
}
