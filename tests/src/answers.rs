//! What an operation must answer and leave in the lent output, as the paper's refusal section
//! says it: a refusal keeps every byte of the output, an answer takes its beginning only.

use crate::editing::edited;
use crate::edition::Edition;
use crate::refusals::Refusal;
use crate::spoken_levels::spoken_number;
use crate::{edit, fit, join, names, read_utf8, speak_level, tape, write_utf8};

/// The most bytes of standard input that the program `speak` takes.
pub const MAX_INPUT: usize = 65_536;

/// The most bytes of standard input that the program `gauge` takes.
pub const MAX_NUMBER: usize = 4_096;

/// The four numbers of an answer, wide enough for whatever the library gives. An accepted message
/// has number 0 and place 0.
#[derive(Clone, Copy, Debug, PartialEq, Eq)]
pub struct Answer {
    pub number: u32,
    pub place: usize,
    pub length: usize,
    pub live: usize,
}

impl Answer {
    /// The answer of an operation that takes no cuts, so that none is live.
    pub fn without_cuts(number: u32, place: usize, length: usize) -> Answer {
        Answer {
            number,
            place,
            length,
            live: 0,
        }
    }

    /// The refusal, unless the message was accepted.
    pub fn refusal(self) -> Option<Refusal> {
        Refusal::given(self.number, self.place)
    }
}

/// An answer with nothing known of the output yet: what is written and the live count, or a refusal
/// other than 11.
pub type Whole = Result<(Vec<u8>, usize), Refusal>;

pub fn whole_edit(text: &[u8]) -> Whole {
    edit(text, usize::MAX).map(|edited| (edited, 0))
}

pub fn whole_read_utf8(text: &[u8]) -> Whole {
    read_utf8(text, usize::MAX).map(|read| (read, 0))
}

pub fn whole_write_utf8(msg: &[u8]) -> Whole {
    write_utf8(msg, usize::MAX).map(|written| (written, 0))
}

pub fn whole_names(msg: &[u8]) -> Whole {
    names(msg, usize::MAX).map(|names| (names, 0))
}

pub fn whole_tape(edition: Edition, msg: &[u8]) -> Whole {
    tape(edition, msg, usize::MAX).map(|tape| (tape, 0))
}

pub fn whole_join(edition: Edition, msg: &[u8], cuts: &[usize]) -> Whole {
    join(edition, msg, cuts, usize::MAX).map(|joined| (joined.tape, joined.live))
}

pub fn whole_speak_level(level: i32) -> Whole {
    speak_level(level, usize::MAX).map(|words| (words, 0))
}

/// An answer with an output lent to it, and the output afterwards.
pub fn lent(whole: &Whole, before: &[u8]) -> (Answer, Vec<u8>) {
    let fitted = whole
        .clone()
        .and_then(|(written, live)| Ok((fit(written, before.len())?, live)));
    let mut after = before.to_vec();
    let answer = match fitted {
        Ok((written, live)) => {
            after[..written.len()].copy_from_slice(&written);
            Answer {
                number: 0,
                place: 0,
                length: written.len(),
                live,
            }
        }
        Err(Refusal { number, place }) => Answer {
            number: number.into(),
            place,
            length: 0,
            live: 0,
        },
    };
    (answer, after)
}

/// What the program `govorun` prints for the bytes of its standard input, a message. The programs
/// keep edition 1.
pub fn expected_print(input: &[u8]) -> String {
    print_of(tape(Edition::One, input, usize::MAX))
}

/// What the program `speak` prints for the bytes of its standard input, a text in UTF-8. Gives
/// nothing where they are too many.
pub fn expected_speech(input: &[u8]) -> Option<String> {
    if input.len() > MAX_INPUT {
        return None;
    }
    let read = read_utf8(input, usize::MAX);
    let tape = read.and_then(|read| tape(Edition::One, &edited(&read), usize::MAX));
    Some(print_of(tape))
}

/// What the program `gauge` prints for the bytes of its standard input, a level in decimal. Gives
/// nothing where they are no number.
pub fn expected_level(input: &[u8]) -> Option<String> {
    if input.len() > MAX_NUMBER {
        return None;
    }
    let words = spoken_number(input)?;
    let tape = words.and_then(|words| tape(Edition::One, &words, usize::MAX));
    Some(print_of(tape))
}

/// A tape or a refusal as all programs print it.
pub fn print_of(answer: Result<Vec<u8>, Refusal>) -> String {
    match answer {
        Ok(tape) => {
            let codes: Vec<String> = tape.iter().map(u8::to_string).collect();
            codes.join(" ") + "\n"
        }
        Err(Refusal { number, place }) => format!("refused {number} at {place}\n"),
    }
}
