//! The operations as all implementations agree on them. Each call asks the library, in `print`,
//! `speak` and `gauge` a program, and ends the test unless the answer and every byte of the output
//! are those of the implementation written from the papers; then it hands the answer on. What makes
//! a tape is asked in both editions, and where none is named the answer of edition 1 is handed on.

use std::thread;
use std::time::Duration;

use crate::answers::{Answer, Whole};
use crate::book_trial::Lent;
use crate::demand3::Pair;
use crate::edition::{Edition, EDITIONS};
use crate::joints;
use crate::program::{Program, GAUGE, GOVORUN, SPEAK};
use crate::refusals::Refusal;
use crate::text::hex;
use crate::trial::{Operation, Trial};
use crate::{unit, Counts, Joined};

/// How many processes run at a time where there are many inputs.
const WORKERS: usize = 2;

/// The editor with an output of `cap` bytes.
pub fn edit(text: &[u8], cap: usize) -> Result<Vec<u8>, Refusal> {
    with_output(Operation::Edit, text, cap).map(|(edited, _)| edited)
}

/// The reader of UTF-8 with an output of `cap` bytes.
pub fn read_utf8(text: &[u8], cap: usize) -> Result<Vec<u8>, Refusal> {
    with_output(Operation::ReadUtf8, text, cap).map(|(read, _)| read)
}

/// The writer of UTF-8 with an output of `cap` bytes.
pub fn write_utf8(msg: &[u8], cap: usize) -> Result<Vec<u8>, Refusal> {
    with_output(Operation::WriteUtf8, msg, cap).map(|(written, _)| written)
}

/// The message check.
pub fn check(msg: &[u8]) -> Result<Counts, Refusal> {
    let expected = crate::check(msg);
    assert_eq!(unit::check(msg), expected.into(), "message {}", hex(msg));
    expected
}

/// The naming operation with an output of `cap` bytes.
pub fn names(msg: &[u8], cap: usize) -> Result<Vec<u8>, Refusal> {
    with_output(Operation::Name, msg, cap).map(|(names, _)| names)
}

/// The transcriber with an output of `cap` bytes.
pub fn tape(msg: &[u8], cap: usize) -> Result<Vec<u8>, Refusal> {
    let [one, _] = EDITIONS.map(|edition| tape_in(edition, msg, cap));
    one
}

/// The transcriber in one edition.
pub fn tape_in(edition: Edition, msg: &[u8], cap: usize) -> Result<Vec<u8>, Refusal> {
    with_output(Operation::Transcribe(edition), msg, cap).map(|(tape, _)| tape)
}

/// The joiner with an output of `cap` bytes.
pub fn join(msg: &[u8], cuts: &[usize], cap: usize) -> Result<Joined, Refusal> {
    let [one, _] = EDITIONS.map(|edition| join_in(edition, msg, cuts, cap));
    one
}

/// The joiner in one edition.
pub fn join_in(
    edition: Edition,
    msg: &[u8],
    cuts: &[usize],
    cap: usize,
) -> Result<Joined, Refusal> {
    let whole = with_output(Operation::Join(edition, cuts), msg, cap);
    whole.map(|(tape, live)| Joined { tape, live })
}

/// The places of an accepted message where a cut is live, in either edition.
pub fn live_places(msg: &[u8]) -> Vec<usize> {
    let [one, two] = EDITIONS.map(|edition| joints::live_places(edition, msg));
    assert_eq!(one, two, "message {}", hex(msg));
    one
}

/// The speaker of levels with an output of `cap` bytes.
pub fn speak_level(level: i32, cap: usize) -> Result<Vec<u8>, Refusal> {
    with_output(Operation::SpeakLevel(level), &[], cap).map(|(words, _)| words)
}

/// The lookup in a book: the tape of a phrase, for this listener.
pub fn book_find(
    listener: u32,
    buffer: &[u8],
    used: usize,
    phrase: u16,
) -> Result<Vec<u8>, Refusal> {
    let lookup = Lent::new(buffer, used).lookup(listener, phrase);
    let tried = lookup.in_place(buffer);
    let found = tried.unwrap_or_else(|difference| panic!("{difference}"));
    match Refusal::given(found.number, found.place) {
        Some(refusal) => Err(refusal),
        None => Ok(buffer[found.start..][..found.length].to_vec()),
    }
}

/// The addition to a book by this listener: the new used count.
pub fn book_add(
    listener: u32,
    buffer: &mut [u8],
    used: usize,
    phrase: u16,
    set: u8,
    msg: &[u8],
) -> Result<usize, Refusal> {
    let mut newer = buffer.to_vec();
    let two = book_add_in(listener, Edition::Two, &mut newer, used, phrase, set, msg);
    let one = book_add_in(listener, Edition::One, buffer, used, phrase, set, msg);
    assert_eq!(one, two, "message {}", hex(msg));
    one
}

/// The addition in one edition.
pub fn book_add_in(
    listener: u32,
    edition: Edition,
    buffer: &mut [u8],
    used: usize,
    phrase: u16,
    set: u8,
    msg: &[u8],
) -> Result<usize, Refusal> {
    let before = buffer.to_vec();
    let lent = Lent::new(&before, used);
    let addition = lent.addition(listener, edition, phrase, set, msg);
    let tried = addition.in_place(msg, buffer);
    let added = tried.unwrap_or_else(|difference| panic!("{difference}"));
    match Refusal::given(added.number, added.place) {
        Some(refusal) => Err(refusal),
        None => Ok(added.used),
    }
}

/// Transcriber and joiner with room enough, for the questions of demand 3.
pub const PAIR: Pair = Pair {
    tape: |edition, msg| tape_in(edition, msg, usize::MAX).ok(),
    join: |edition, msg, cuts| join_in(edition, msg, cuts, usize::MAX).expect("good cuts"),
};

/// What the program `govorun` prints for a message.
pub fn print(input: &[u8]) -> String {
    printed(GOVORUN, input)
}

/// What the program `speak` prints for a text in UTF-8; nothing for one that is too long.
pub fn speak(input: &[u8]) -> String {
    printed(SPEAK, input)
}

/// What the program `gauge` prints for a level in decimal; nothing for what is no number.
pub fn gauge(input: &[u8]) -> String {
    printed(GAUGE, input)
}

fn printed(program: Program, input: &[u8]) -> String {
    let given = program.piped(input, input.len().max(1), Duration::ZERO);
    assert_eq!(given, (program.expected)(input), "input {}", hex(input));
    let (print, _) = given;
    print
}

/// Tries a program on all inputs; the workers take them in turns.
pub fn print_all(program: Program, inputs: &[Vec<u8>]) {
    println!("{} inputs", inputs.len());
    thread::scope(|scope| {
        for worker in 0..WORKERS {
            let mine = inputs.iter().skip(worker).step_by(WORKERS);
            scope.spawn(move || mine.map(|input| printed(program, input)).for_each(drop));
        }
    });
}

/// An operation with this output lent to it: its answer, and the output afterwards.
pub fn lent(operation: Operation, msg: &[u8], before: &[u8]) -> (Answer, Vec<u8>) {
    let mut out = before.to_vec();
    let tried = Trial::new(operation, msg).in_place(msg, &mut out);
    let answer = tried.unwrap_or_else(|difference| panic!("{difference}"));
    (answer, out)
}

/// No more bytes are lent than an answer may have.
fn with_output(operation: Operation, msg: &[u8], cap: usize) -> Whole {
    let before = vec![0xAA; cap.min(operation.most(msg))];
    let (answer, mut out) = lent(operation, msg, &before);
    if let Some(refusal) = answer.refusal() {
        return Err(refusal);
    }
    out.truncate(answer.length);
    Ok((out, answer.live))
}
