//! Demand 3 through the library alone: its joiner beside its transcriber, with no other
//! implementation between them, in both editions.

use govorun_tests::demand3::Pair;
use govorun_tests::gen::noise::every_string;
use govorun_tests::gen::{every_list, good_cuts, message, Rng};
use govorun_tests::message::breaks;
use govorun_tests::{cp1251, show, unit, Edition, Joined, EDITIONS};

const LIBRARY: Pair = Pair { tape, join };

/// The library's tape of a message, unless it refuses it.
fn tape(edition: Edition, msg: &[u8]) -> Option<Vec<u8>> {
    let mut out = vec![0xAA; 2 * msg.len()];
    let answer = unit::transcribe(edition, msg, &mut out);
    out.truncate(answer.length as usize);
    (answer.number == 0).then_some(out)
}

/// The library's second tape and its live count.
fn join(edition: Edition, msg: &[u8], cuts: &[usize]) -> Joined {
    let mut out = vec![0x55; 2 * msg.len()];
    let answer = unit::join(edition, msg, cuts, &mut out);
    assert_eq!(answer.number, 0, "{} cut at {cuts:?}", show(msg));
    out.truncate(answer.length as usize);
    Joined {
        tape: out,
        live: answer.live as usize,
    }
}

/// The places where a cut by itself is live. Neither the list nor the edition has a say in it, so
/// the count of every other list must be made up of these.
fn live_places(msg: &[u8]) -> Vec<usize> {
    let [one, two] = EDITIONS.map(|edition| {
        let is_live = |&place: &usize| join(edition, msg, &[place]).live == 1;
        breaks(msg).into_iter().filter(is_live).collect::<Vec<_>>()
    });
    assert_eq!(one, two, "{}", show(msg));
    one
}

/// The claim for one message, if it is accepted, and these lists; each cut by itself is a list
/// too. Gives how many cuts are live.
fn holds_for(msg: &[u8], lists: &[Vec<usize>]) -> usize {
    let Some(wholes) = LIBRARY.wholes(msg) else {
        return 0;
    };
    let live = live_places(msg);
    for &place in &live {
        LIBRARY.holds(msg, &wholes, &live, &[place]);
    }
    for cuts in lists {
        LIBRARY.holds(msg, &wholes, &live, cuts);
    }
    live.len()
}

/// Every list of cuts of every short string over an alphabet.
fn search(alphabet: &str, longest: usize, at_least: usize) {
    let mut live = 0;
    every_string(&cp1251(alphabet), longest, &mut |msg| {
        live += holds_for(msg, &every_list(msg));
    });
    println!("{live} live cuts over {alphabet}");
    assert!(live >= at_least);
}

#[test]
fn every_short_message_over_small_alphabets() {
    search("дква #", 6, 300);
    search("сбьъа ", 6, 250);
    search("иэдь* ", 6, 900);
    search("ижцйьа #", 6, 3500);
    search("яежхч* ", 6, 900);
}

/// Messages of up to so many bytes, each with the empty list, the full one and random ones.
fn random_search(rng: &mut Rng, count: usize, longest: usize) -> usize {
    let mut live = 0;
    for _ in 0..count {
        let length = rng.between(1, longest);
        let msg = message(rng, length);
        let mut lists = vec![Vec::new(), breaks(&msg)];
        lists.extend((0..3).map(|_| good_cuts(rng, &msg)));
        live += holds_for(&msg, &lists);
    }
    live
}

#[test]
fn random_messages_with_random_lists() {
    let mut rng = Rng::for_test(40);
    let live = random_search(&mut rng, 8000, 200) + random_search(&mut rng, 20, 4096);
    println!("{live} live cuts");
    assert!(live >= 10_000);
}

#[test]
fn as_many_words_as_a_message_holds() {
    for end in ["ба", "а", "и"] {
        let words = [vec!["к"; 1000], vec!["с"; 1000], vec![end]].concat();
        let msg = cp1251(&words.join(" "));
        let all = breaks(&msg);
        let third: Vec<usize> = all.iter().copied().skip(1).step_by(3).collect();
        let wholes = LIBRARY.wholes(&msg).expect("an accepted message");
        let live = live_places(&msg);
        for cuts in [&all, &third, &vec![]] {
            LIBRARY.holds(&msg, &wholes, &live, cuts);
        }
    }
}
