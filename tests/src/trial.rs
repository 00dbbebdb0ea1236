//! One call of the library beside what the papers ask of it: the answer, and every byte of the
//! lent memory and around it.

use crate::answers::{
    lent, whole_edit, whole_join, whole_names, whole_read_utf8, whole_speak_level, whole_tape,
    whole_write_utf8, Answer, Whole,
};
use crate::edition::{Edition, EDITIONS};
use crate::fence::{Fenced, Side};
use crate::gen::Rng;
use crate::placed::Placed;
use crate::spoken_levels::LONGEST;
use crate::text::{hex, show};
use crate::unit;

/// Answers up to this length are tried with outputs of every length.
const SHORT: usize = 12;

/// An operation that writes to a lent output. All but the speaker of levels are given a message or
/// a text.
#[derive(Clone, Copy, Debug)]
pub enum Operation<'a> {
    Edit,
    ReadUtf8,
    WriteUtf8,
    Name,
    Transcribe(Edition),
    Join(Edition, &'a [usize]),
    SpeakLevel(i32),
}

impl Operation<'_> {
    /// The answer that the papers ask for, before an output is lent.
    fn whole(self, msg: &[u8]) -> Whole {
        match self {
            Operation::Edit => whole_edit(msg),
            Operation::ReadUtf8 => whole_read_utf8(msg),
            Operation::WriteUtf8 => whole_write_utf8(msg),
            Operation::Name => whole_names(msg),
            Operation::Transcribe(edition) => whole_tape(edition, msg),
            Operation::Join(edition, cuts) => whole_join(edition, msg, cuts),
            Operation::SpeakLevel(level) => whole_speak_level(level),
        }
    }

    /// The answer of the library.
    fn call(self, msg: &[u8], out: &mut [u8]) -> Answer {
        match self {
            Operation::Edit => unit::edit(msg, out).into(),
            Operation::ReadUtf8 => unit::read_utf8(msg, out).into(),
            Operation::WriteUtf8 => unit::write_utf8(msg, out).into(),
            Operation::Name => unit::name(msg, out).into(),
            Operation::Transcribe(edition) => unit::transcribe(edition, msg, out).into(),
            Operation::Join(edition, cuts) => unit::join(edition, msg, cuts, out).into(),
            Operation::SpeakLevel(level) => unit::speak_level(level, out).into(),
        }
    }

    /// The most bytes that its answer may have.
    pub fn most(self, msg: &[u8]) -> usize {
        match self {
            Operation::SpeakLevel(_) => LONGEST,
            _ => 2 * msg.len(),
        }
    }

    /// What it is given, for a report.
    fn told(self, msg: &[u8]) -> String {
        match self {
            Operation::ReadUtf8 => told(msg, &String::from_utf8_lossy(msg)),
            _ => told(msg, &show(msg)),
        }
    }
}

/// The check on a message, or what is wrong with its answer.
pub fn check(rng: &mut Rng, msg: &[u8]) -> Result<(), String> {
    let placed = Placed::copy(rng, msg);
    let expected = unit::Counts::from(crate::check(msg));
    let given = unit::check(placed.bytes());
    if given == expected {
        return Ok(());
    }
    Err(format!(
        "the check gives {given:?} in the place of {expected:?}\n{}",
        told(msg, &show(msg))
    ))
}

/// An operation on a message, with the answer that the papers ask for.
pub struct Trial<'a> {
    operation: Operation<'a>,
    msg: &'a [u8],
    whole: Whole,
}

impl<'a> Trial<'a> {
    pub fn new(operation: Operation<'a>, msg: &'a [u8]) -> Self {
        Trial {
            operation,
            msg,
            whole: operation.whole(msg),
        }
    }

    /// The answer that the papers ask for, before an output is lent.
    pub fn whole(&self) -> &Whole {
        &self.whole
    }

    /// The length of the whole answer; 0 for a refusal.
    pub fn length(&self) -> usize {
        self.whole.as_ref().map_or(0, |(written, _)| written.len())
    }

    /// Lengths of outputs around that of the answer; none; and that of the text, always enough for
    /// one that is edited or read.
    fn text_caps(&self) -> Vec<usize> {
        let full = self.length();
        let around = full.saturating_sub(2)..=full + 2;
        around.chain([0, self.msg.len()]).collect()
    }

    /// Tries the operation with outputs of these lengths.
    pub fn with_text_outputs(&self, rng: &mut Rng) -> Result<(), String> {
        let mut caps = self.text_caps().into_iter();
        caps.try_for_each(|cap| self.with_output(rng, cap))
    }

    /// Tries it on this copy of the text, with outputs of these lengths on one side of fenced memory.
    pub fn within_fences(
        &self,
        text: &[u8],
        side: Side,
        outputs: &mut Fenced,
    ) -> Result<(), String> {
        let mut caps = self.text_caps().into_iter();
        caps.try_for_each(|cap| self.in_place(text, side(outputs, cap)).map(drop))
    }

    /// Tries the operation with an output of `cap` bytes, and says what is wrong with it.
    pub fn with_output(&self, rng: &mut Rng, cap: usize) -> Result<(), String> {
        let placed = Placed::copy(rng, self.msg);
        let mut out = Placed::room(rng, cap);
        let (_, after) = lent(&self.whole, out.bytes());
        let memory = out.memory_with(&after);
        self.in_place(placed.bytes(), out.bytes_mut())?;
        out.is(&memory).map_err(|change| self.told(&change))
    }

    /// Tries the operation on this copy of the message and this output, and gives its answer.
    pub fn in_place(&self, msg: &[u8], out: &mut [u8]) -> Result<Answer, String> {
        let (expected, after) = lent(&self.whole, out);
        let given = self.operation.call(msg, out);
        if given != expected {
            let cap = out.len();
            return Err(self.told(&format!("gives {given:?} for {expected:?}, output {cap}")));
        }
        if out != after {
            let out = hex(out);
            return Err(self.told(&format!("leaves {out} for {}", hex(&after))));
        }
        if msg != self.msg {
            return Err(self.told("changes the message"));
        }
        Ok(given)
    }

    fn told(&self, wrong: &str) -> String {
        let operation = self.operation;
        format!("{operation:?} {wrong}\n{}", operation.told(self.msg))
    }
}

/// A message or a text for a report.
fn told(msg: &[u8], shown: &str) -> String {
    format!("{} bytes: {}\n{shown}", msg.len(), hex(msg))
}

/// The operations on a message that write to an output, tapes in both editions.
pub fn writing(cuts: &[usize]) -> Vec<Operation<'_>> {
    writing_in(&EDITIONS, cuts)
}

/// The same with tapes in these editions.
fn writing_in<'a>(editions: &[Edition], cuts: &'a [usize]) -> Vec<Operation<'a>> {
    let mut operations = vec![
        Operation::Edit,
        Operation::ReadUtf8,
        Operation::WriteUtf8,
        Operation::Name,
    ];
    for &edition in editions {
        operations.extend([
            Operation::Transcribe(edition),
            Operation::Join(edition, cuts),
        ]);
    }
    operations
}

/// All operations on a message, tapes in both editions, with outputs of all lengths that matter.
pub fn all(rng: &mut Rng, msg: &[u8], cuts: &[usize]) -> Result<(), String> {
    check(rng, msg)?;
    for operation in writing(cuts) {
        every_cap(rng, operation, msg)?;
    }
    Ok(())
}

/// An operation on a message, with outputs of all lengths that matter.
pub fn every_cap(rng: &mut Rng, operation: Operation, msg: &[u8]) -> Result<(), String> {
    let trial = Trial::new(operation, msg);
    for cap in caps(rng, trial.length()) {
        trial.with_output(rng, cap)?;
    }
    Ok(())
}

/// All operations on a message, tapes in one edition, each with an output of one length.
pub fn once(rng: &mut Rng, edition: Edition, msg: &[u8], cuts: &[usize]) -> Result<(), String> {
    check(rng, msg)?;
    let mut operations = writing_in(&[edition], cuts).into_iter();
    operations.try_for_each(|operation| with_any_output(rng, operation, msg))
}

/// An operation with an output of one length.
pub fn with_any_output(rng: &mut Rng, operation: Operation, msg: &[u8]) -> Result<(), String> {
    let trial = Trial::new(operation, msg);
    let cap = any_cap(rng, trial.length());
    trial.with_output(rng, cap)
}

/// The lengths of outputs to try for an answer of this length: every one up to one more, or only
/// those around the ends if the answer is long.
fn caps(rng: &mut Rng, full: usize) -> Vec<usize> {
    let mut caps: Vec<usize> = if full <= SHORT {
        (0..=full + 1).collect()
    } else {
        vec![0, 1, rng.below(full), full - 1, full, full + 1]
    };
    caps.push(full + rng.below(100));
    caps
}

fn any_cap(rng: &mut Rng, full: usize) -> usize {
    match rng.below(8) {
        0 => 0,
        1 => rng.below(full + 1),
        2 => full.saturating_sub(1),
        3 | 4 => full + rng.below(100),
        _ => full,
    }
}
