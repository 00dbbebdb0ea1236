//! Texts with punctuation, made so that their edited form is known beforehand.

use super::noise::string;
use super::Rng;

/// The gap, and the marks that become one.
pub const GAPS: &[u8] = b" -()\"'";
/// The pause, and the marks that become one.
pub const PAUSES: &[u8] = b"#.,;:?!";
/// All bytes that are breaks once the text is edited.
pub const BREAKS: &[u8] = b" -()\"'#.,;:?!";

/// A text that has this edited form, in which no break may be first, last or after a break. In the
/// place of each break stands a run of up to `longest` bytes that becomes it, and at either end
/// perhaps one that vanishes.
pub fn punctuated(rng: &mut Rng, edited: &[u8], longest: usize) -> Vec<u8> {
    let mut text = end(rng, longest);
    for &byte in edited {
        match byte {
            b' ' => text.extend(run(rng, GAPS, longest)),
            b'#' => text.extend(run_with_pause(rng, longest)),
            _ => text.push(byte),
        }
    }
    text.extend(end(rng, longest));
    text
}

fn run(rng: &mut Rng, from: &[u8], longest: usize) -> Vec<u8> {
    let length = rng.between(1, longest);
    string(rng, from, length)
}

/// Often one pause among nothing but gaps, wherever it stands.
fn run_with_pause(rng: &mut Rng, longest: usize) -> Vec<u8> {
    let others = rng.pick(&[GAPS, GAPS, BREAKS]);
    let mut run = run(rng, others, longest);
    let place = rng.below(run.len());
    run[place] = rng.pick(PAUSES);
    run
}

fn end(rng: &mut Rng, longest: usize) -> Vec<u8> {
    match rng.below(4) {
        0 => run(rng, BREAKS, longest),
        1 => run(rng, GAPS, longest),
        _ => Vec::new(),
    }
}
