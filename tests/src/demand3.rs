//! Demand 3 as a question that any transcriber and joiner can be asked.

use crate::edition::{Edition, EDITIONS};
use crate::message::breaks;
use crate::text::show;
use crate::Joined;

/// A transcriber and a joiner, each with all the output it needs. The transcriber gives nothing
/// for a refused message; the joiner is handed good cuts only.
pub struct Pair {
    pub tape: fn(Edition, &[u8]) -> Option<Vec<u8>>,
    pub join: fn(Edition, &[u8], &[usize]) -> Joined,
}

impl Pair {
    /// The tapes of a message in both editions, unless it is refused.
    pub fn wholes(&self, msg: &[u8]) -> Option<[Vec<u8>; 2]> {
        let [one, two] = EDITIONS.map(|edition| (self.tape)(edition, msg));
        assert_eq!(one.is_some(), two.is_some(), "{}", show(msg));
        one.zip(two).map(<[_; 2]>::from)
    }

    /// The claim for one list of cuts of an accepted message, in either edition. `wholes` are its
    /// tapes, and `live` the places where a cut of this message is live.
    pub fn holds(&self, msg: &[u8], wholes: &[Vec<u8>; 2], live: &[usize], cuts: &[usize]) {
        for (edition, whole) in EDITIONS.into_iter().zip(wholes) {
            self.holds_in(edition, msg, whole, live, cuts);
        }
    }

    fn holds_in(&self, edition: Edition, msg: &[u8], whole: &[u8], live: &[usize], cuts: &[usize]) {
        let told = || format!("{} cut at {cuts:?} in edition {edition:?}", show(msg));
        let joined = (self.join)(edition, msg, cuts);
        let second = joined.tape;
        let parts = self.parts_and_marks(edition, msg, cuts);
        assert_eq!(second, parts, "{}", told());
        assert_eq!(second.len(), whole.len(), "{}", told());
        let is_live = |cut: &usize| live.contains(cut);
        let live: Vec<usize> = cuts.iter().copied().filter(is_live).collect();
        assert_eq!(joined.live, live.len(), "{}", told());
        assert_eq!(second == whole, live.is_empty(), "{}", told());
        for cut in live {
            let mark = mark_index(msg, whole, cut);
            assert_eq!(second[mark], whole[mark], "{}", told());
            let differs = |index: usize| second[index] != whole[index];
            assert!(differs(mark - 1) || differs(mark + 1), "{}", told());
        }
    }

    /// The tapes of the parts laid end to end. The message is split byte by byte, not by the code
    /// that the joiner here uses.
    fn parts_and_marks(&self, edition: Edition, msg: &[u8], cuts: &[usize]) -> Vec<u8> {
        let mut tape = Vec::new();
        let mut part = Vec::new();
        for (place, &byte) in msg.iter().enumerate() {
            if cuts.binary_search(&place).is_ok() {
                tape.extend(self.part(edition, &part));
                part.clear();
                tape.push(if byte == b' ' { 0 } else { 63 });
            } else {
                part.push(byte);
            }
        }
        tape.extend(self.part(edition, &part));
        tape
    }

    fn part(&self, edition: Edition, msg: &[u8]) -> Vec<u8> {
        (self.tape)(edition, msg).expect("a part of an accepted message is accepted")
    }
}

/// The index on the tape of the mark of the break at a place. Marks are the only codes 0 and 63,
/// so the marks and the breaks are in the same order.
fn mark_index(msg: &[u8], tape: &[u8], place: usize) -> usize {
    let rank = breaks(&msg[..place]).len();
    let is_mark = |&index: &usize| tape[index] == 0 || tape[index] == 63;
    let mut marks = (0..tape.len()).filter(is_mark);
    marks.nth(rank).expect("every break has its mark")
}
