//! Lists of cuts, good ones and every kind of bad one.

use super::Rng;
use crate::message::breaks;

/// What is wrong with the first bad cut of a list.
#[derive(Clone, Copy, Debug, PartialEq, Eq)]
pub enum BadCut {
    NotABreak,
    Falling,
    Equal,
    Beyond,
    Huge,
}

pub const BAD_CUTS: [BadCut; 5] = [
    BadCut::NotABreak,
    BadCut::Falling,
    BadCut::Equal,
    BadCut::Beyond,
    BadCut::Huge,
];

/// A strictly rising list of places of breaks: empty, full, or a random choice.
pub fn good_cuts(rng: &mut Rng, msg: &[u8]) -> Vec<usize> {
    let all = breaks(msg);
    match rng.below(6) {
        0 => Vec::new(),
        1 => all,
        2 => all.into_iter().filter(|_| rng.one_in(5)).collect(),
        _ => all.into_iter().filter(|_| rng.one_in(2)).collect(),
    }
}

/// Every strictly rising list of places of breaks.
pub fn every_list(msg: &[u8]) -> Vec<Vec<usize>> {
    let mut lists = vec![Vec::new()];
    for place in breaks(msg) {
        for index in 0..lists.len() {
            let mut longer = lists[index].clone();
            longer.push(place);
            lists.push(longer);
        }
    }
    lists
}

/// A list with a bad cut of this kind, and the index of its first bad cut. There is none if the
/// kind needs a break and the message has none.
pub fn bad_cuts(rng: &mut Rng, msg: &[u8], kind: BadCut) -> Option<(Vec<usize>, usize)> {
    let mut list = good_cuts(rng, msg);
    list.truncate(rng.below(list.len() + 1));
    if list.is_empty() && matches!(kind, BadCut::Falling | BadCut::Equal) {
        list.push(*breaks(msg).first()?);
    }
    let bad_index = list.len();
    let last = list.last().copied();
    list.push(match kind {
        BadCut::NotABreak => not_a_break(rng, msg),
        BadCut::Falling => lower(rng, msg, last?),
        BadCut::Equal => last?,
        BadCut::Beyond => msg.len() + rng.below(3),
        BadCut::Huge => huge(rng, msg),
    });
    // What follows the first bad cut must not matter.
    for _ in 0..rng.below(4) {
        list.push(rng.below(msg.len() + 2));
    }
    Some((list, bad_index))
}

/// A place of the message without a break; an accepted message has one at 0.
fn not_a_break(rng: &mut Rng, msg: &[u8]) -> usize {
    let all = breaks(msg);
    let start = rng.below(msg.len());
    (start..msg.len())
        .find(|place| !all.contains(place))
        .unwrap_or(0)
}

/// A place below another one, at a break if there is one: then only the order is wrong.
fn lower(rng: &mut Rng, msg: &[u8], place: usize) -> usize {
    let below: Vec<usize> = breaks(msg).into_iter().filter(|&b| b < place).collect();
    if below.is_empty() {
        rng.below(place)
    } else {
        rng.pick(&below)
    }
}

/// A place far outside, which a narrower number would take for one inside the message.
fn huge(rng: &mut Rng, msg: &[u8]) -> usize {
    let inside = breaks(msg).first().copied().unwrap_or(0);
    rng.pick(&[
        usize::MAX,
        usize::MAX - inside,
        (1 << (usize::BITS - 1)) + inside,
        (1 << (usize::BITS / 2)) + inside,
        (1 << 16) + inside,
    ])
}
