//! Every function of the C interface beside the expected answers: the four numbers, the lent
//! output byte for byte, and the bytes around it.

use std::collections::BTreeSet;
use std::process::Command;

use govorun_tests::fence::{as_places, Fenced, Side, SIDES};
use govorun_tests::gen::cuts::BAD_CUTS;
use govorun_tests::gen::damaged::SPOTS;
use govorun_tests::gen::noise::{bytes, every_string, string};
use govorun_tests::gen::{
    bad_cuts, damaged, extreme_messages, good_cuts, message, message_of_any_length, Rng,
};
use govorun_tests::message::breaks;
use govorun_tests::trial::{self, Operation, Trial};
use govorun_tests::unit::{self, ARCHIVE, DISPATCH, LISTENERS};
use govorun_tests::{check, cp1251, hex, EDITIONS};

/// All operations on one message with one list of cuts.
fn agrees(rng: &mut Rng, msg: &[u8], cuts: &[usize]) {
    if let Err(difference) = trial::all(rng, msg, cuts) {
        panic!("{difference}\ncuts {cuts:?}");
    }
}

/// The joiner alone in both editions, with outputs of the given lengths.
fn joins(rng: &mut Rng, msg: &[u8], cuts: &[usize], caps: &[usize]) {
    for edition in EDITIONS {
        let trial = Trial::new(Operation::Join(edition, cuts), msg);
        for &cap in caps {
            if let Err(difference) = trial.with_output(rng, cap) {
                panic!("{difference}");
            }
        }
    }
}

/// A list of places without any order, in and around a message.
fn any_cuts(rng: &mut Rng, msg: &[u8]) -> Vec<usize> {
    let place = |rng: &mut Rng| match rng.below(8) {
        0 => usize::MAX,
        1 => rng.bits() as usize,
        _ => rng.below(msg.len() + 2),
    };
    (0..rng.below(5)).map(|_| place(rng)).collect()
}

#[test]
fn every_string_of_up_to_two_bytes() {
    let mut rng = Rng::for_test(20);
    let every_byte: Vec<u8> = (0..=255).collect();
    let mut count = 0;
    every_string(&every_byte, 2, &mut |msg| {
        let cuts = any_cuts(&mut rng, msg);
        agrees(&mut rng, msg, &cuts);
        count += 1;
    });
    assert_eq!(count, 1 + 256 + 65536);
}

#[test]
fn every_word_of_up_to_three_letters() {
    let mut rng = Rng::for_test(21);
    let letters = cp1251("абвдежзийкносьъэ* ");
    every_string(&letters, 3, &mut |msg| {
        let cuts = breaks(msg);
        agrees(&mut rng, msg, &cuts);
    });
}

#[test]
fn short_accepted_messages_with_good_cuts() {
    let mut rng = Rng::for_test(22);
    for _ in 0..80_000 {
        let length = rng.between(1, 30);
        let msg = message(&mut rng, length);
        let cuts = good_cuts(&mut rng, &msg);
        agrees(&mut rng, &msg, &cuts);
    }
}

#[test]
fn accepted_messages_with_good_cuts() {
    let mut rng = Rng::for_test(31);
    for _ in 0..15_000 {
        let msg = message_of_any_length(&mut rng);
        let cuts = good_cuts(&mut rng, &msg);
        agrees(&mut rng, &msg, &cuts);
    }
}

#[test]
fn accepted_messages_with_bad_cuts() {
    let mut rng = Rng::for_test(23);
    for _ in 0..10_000 {
        let msg = message_of_any_length(&mut rng);
        let codes = check(&msg).expect("an accepted message").codes;
        for kind in BAD_CUTS {
            if let Some((cuts, _)) = bad_cuts(&mut rng, &msg, kind) {
                joins(&mut rng, &msg, &cuts, &[0, codes]);
            }
        }
    }
}

#[test]
fn damaged_messages() {
    let mut rng = Rng::for_test(24);
    for number in 1..=10 {
        for spot in SPOTS {
            for _ in 0..1500 {
                let (msg, _) = damaged(&mut rng, number, spot);
                let cuts = any_cuts(&mut rng, &msg);
                agrees(&mut rng, &msg, &cuts);
            }
        }
    }
}

#[test]
fn strings_of_a_few_letters() {
    let mut rng = Rng::for_test(25);
    let alphabets = [
        "дква #",
        "сбьъа ",
        "иэдьж* ",
        "ижцйьа #",
        "яежхч* ",
        "блоьъ* ",
        "стнди ",
        "здцнршк",
    ];
    for _ in 0..80_000 {
        let alphabet = cp1251(rng.pick(&alphabets));
        let length = rng.between(3, 12);
        let msg = string(&mut rng, &alphabet, length);
        let cuts = good_cuts(&mut rng, &msg);
        agrees(&mut rng, &msg, &cuts);
    }
}

#[test]
fn random_bytes() {
    let mut rng = Rng::for_test(26);
    for _ in 0..20_000 {
        let length = rng.below(40);
        let msg = bytes(&mut rng, length);
        let cuts = any_cuts(&mut rng, &msg);
        agrees(&mut rng, &msg, &cuts);
    }
}

#[test]
fn messages_of_about_the_longest_length() {
    let mut rng = Rng::for_test(27);
    for length in (4090..=4100).chain([5000, 8192, 65_535, 65_536, 65_537, 1_000_000]) {
        for _ in 0..5 {
            let msg = message(&mut rng, length);
            let cuts = good_cuts(&mut rng, &msg);
            agrees(&mut rng, &msg, &cuts);
        }
    }
}

/// Every kind of byte as the 65th letter of a word, and near it, with and without marks before it.
#[test]
fn words_of_about_the_longest_length() {
    let mut rng = Rng::for_test(32);
    let tails = "|*|а*б|стн|здно|нтский|ста|ндшт|ьа|ъя|ъь|7| и|#а| ";
    for filler in ["а", "а*", "з", "с"] {
        for count in 60..=66 {
            for tail in tails.split('|') {
                for lead in ["", "к ", "дуб стн "] {
                    let msg = cp1251(&[lead, &filler.repeat(count), tail].concat());
                    agrees(&mut rng, &msg, &breaks(&msg));
                }
            }
        }
    }
}

#[test]
fn extreme_messages_with_many_cuts() {
    let mut rng = Rng::for_test(28);
    for msg in extreme_messages(&mut rng, 10) {
        let all = breaks(&msg);
        agrees(&mut rng, &msg, &all);
        agrees(&mut rng, &msg, &[]);
        let half: Vec<usize> = all.iter().copied().step_by(2).collect();
        agrees(&mut rng, &msg, &half);
        let twice = all.repeat(2);
        joins(&mut rng, &msg, &twice, &[0, 9000]);
        let endless = vec![usize::MAX; 100_000];
        joins(&mut rng, &msg, &endless, &[0, 9000]);
    }
}

/// As many bytes as an answer can have.
const MOST: usize = 2 * 4096;

/// An operation with all its memory at fences: the bytes of the message, the cuts and the output
/// stand right after a fence or right before one.
struct AtFences {
    msg: Fenced,
    cuts: Fenced,
    out: Fenced,
}

impl AtFences {
    fn new() -> Self {
        AtFences {
            msg: Fenced::new(4096 + 100),
            cuts: Fenced::new(2048 * size_of::<usize>()),
            out: Fenced::new(MOST),
        }
    }

    /// All operations, with no output, one byte too few, just enough and some more.
    fn agree(&mut self, side: Side, msg: &[u8], cuts: &[usize]) {
        let placed = side(&mut self.msg, msg.len());
        placed.copy_from_slice(msg);
        let list = as_places(side(&mut self.cuts, size_of_val(cuts)));
        list.copy_from_slice(cuts);
        assert_eq!(unit::check(placed), check(msg).into(), "{}", hex(msg));
        for operation in trial::writing(list) {
            let trial = Trial::new(operation, msg);
            let full = trial.length();
            for cap in [0, full.saturating_sub(1), full, full + 10] {
                let cap = cap.min(MOST);
                let tried = trial.in_place(placed, side(&mut self.out, cap));
                tried.unwrap_or_else(|difference| panic!("{difference}"));
            }
        }
    }
}

#[test]
fn nothing_outside_is_touched() {
    let mut rng = Rng::for_test(29);
    let mut memory = AtFences::new();
    for round in 0..4000 {
        let side = SIDES[round % 2];
        let number = 3 + round as u8 % 8;
        let (bad, _) = damaged(&mut rng, number, SPOTS[round % 3]);
        memory.agree(side, &bad, &[]);
        let msg = message_of_any_length(&mut rng);
        let cuts = good_cuts(&mut rng, &msg);
        memory.agree(side, &msg, &cuts);
    }
}

#[test]
fn empty_slices() {
    let mut rng = Rng::for_test(30);
    for (msg, cuts) in [
        ("", &[][..]),
        ("", &[0]),
        ("а", &[]),
        ("а б", &[]),
        ("7", &[]),
    ] {
        let msg = cp1251(msg);
        assert_eq!(unit::check(&msg), check(&msg).into());
        for operation in trial::writing(cuts) {
            let tried = Trial::new(operation, &msg).in_place(&msg, &mut []);
            tried.unwrap_or_else(|difference| panic!("{difference}"));
        }
        agrees(&mut rng, &msg, cuts);
    }
}

/// Lengths whose lower 32 bits alone would be other lengths that matter.
#[test]
fn lengths_above_32_bits() {
    const HUGE: usize = 1 << 32;
    let msg = cp1251("а б");
    let mut memory = Fenced::new(HUGE + 3);
    memory.first(3).copy_from_slice(&msg);
    let long = memory.first(HUGE + 3);
    assert_eq!(unit::check(long).number, 2);
    let mut out = [9; 8];
    let mut answers = vec![unit::name(long, &mut out), unit::write_utf8(long, &mut out)];
    for edition in EDITIONS {
        answers.push(unit::transcribe(edition, long, &mut out));
        answers.push(unit::join(edition, long, &[1], &mut out));
        let added = unit::book_add(DISPATCH, edition, &mut out, 0, 0, 7, long);
        assert_eq!((added.number, added.place, out), (2, 0, [9; 8]));
    }
    for answer in answers {
        assert_eq!((answer.number, answer.place, out), (2, 0, [9; 8]));
    }
    let lent = memory.last(HUGE);
    assert_eq!(unit::name(&msg, lent).length, 2);
    assert_eq!(unit::write_utf8(&msg, lent).length, 5);
    assert_eq!(unit::speak_level(-4_989, lent).length, 54);
    let mut zeros = Fenced::new(HUGE * size_of::<usize>());
    for edition in EDITIONS {
        assert_eq!(unit::transcribe(edition, &msg, lent).length, 3);
        assert_eq!(unit::join(edition, &msg, &[1], lent).length, 3);
        let added = unit::book_add(DISPATCH, edition, lent, 0, 0, 7, &msg);
        assert_eq!(added.used, 10);
        let answer = unit::join(edition, &msg, as_places(zeros.whole()), &mut out);
        assert_eq!((answer.number, answer.place, out), (12, 0, [9; 8]));
    }
}

/// The names of the functions that a source declares on lines with this beginning.
fn declared(source: &str, beginning: &str) -> BTreeSet<String> {
    let lines = source.lines().map(str::trim_start);
    let declarations = lines.filter(|line| line.starts_with(beginning));
    let before_arguments = declarations.filter_map(|line| Some(line.split_once('(')?.0));
    let names = before_arguments.filter_map(|before| before.split(' ').next_back());
    names.map(str::to_string).collect()
}

/// The functions that the header declares.
fn calls() -> BTreeSet<String> {
    declared(include_str!("../../include/govorun.h"), "govorun_")
}

/// The number that the header gives to a name.
fn numbered(name: &str) -> Option<u32> {
    let header = include_str!("../../include/govorun.h");
    let (_, behind) = header.split_once(&format!(" {name} = "))?;
    behind.split([',', ' ']).next()?.parse().ok()
}

#[test]
fn every_listener_of_the_header_has_a_number_and_a_bit() {
    for (name, listener) in ["PUMP", "ROAD", "DISPATCH"].into_iter().zip(LISTENERS) {
        let number = numbered(&format!("GOVORUN_{name}"));
        assert_eq!(number, Some(listener), "{name}");
        let bit = numbered(&format!("GOVORUN_FOR_{name}"));
        assert_eq!(bit, Some(1 << listener), "{name}");
    }
}

#[test]
fn every_function_of_the_header_is_called() {
    let called = declared(include_str!("../src/unit.rs"), "pub fn govorun_");
    assert_eq!(calls(), called);
    assert!(called.contains("govorun_book_find"));
}

/// The names of the archive that `nm` lists with this option.
fn symbols(which: &str) -> BTreeSet<String> {
    let mut nm = Command::new("nm");
    nm.args(["--extern-only", "--format=posix", which, ARCHIVE]);
    let listed = nm.output().expect("nm comes with gcc");
    assert!(listed.status.success(), "{}", listed.status);
    let listed = String::from_utf8(listed.stdout).expect("plain names");
    let names = listed.lines().filter(|line| !line.ends_with(':'));
    let names = names.filter_map(|line| line.split(' ').next());
    names.map(str::to_string).collect()
}

#[test]
fn the_archive_has_the_functions_and_calls_nothing_that_the_header_does_not_name() {
    assert_eq!(symbols("--defined-only"), calls());
    let header = include_str!("../../include/govorun.h");
    let (_, named) = header.split_once("calls nothing outside but ").unwrap();
    let named = named.split(' ').next().map(str::to_string);
    for outside in symbols("--undefined-only") {
        assert_eq!(Some(outside), named);
    }
}

#[test]
fn every_function_of_the_header_is_named_in_the_readme() {
    let readme = include_str!("../../README.md");
    assert_eq!(calls().len(), 10);
    assert!(readme.contains("`include/govorun.h` has ten calls"));
    for call in calls() {
        assert!(readme.contains(&format!("`{call}`")), "{call}");
    }
}
