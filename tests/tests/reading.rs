//! The reader of UTF-8: worked examples, every character, every short text, long ones with one
//! wrong sequence of each kind, and outputs of all lengths that matter.

use govorun_tests::agreed::{check, lent, read_utf8};
use govorun_tests::fence::{Fenced, SIDES};
use govorun_tests::gen::noise::{every_string, string};
use govorun_tests::gen::utf8::{taken, untaken, TAKEN};
use govorun_tests::gen::Rng;
use govorun_tests::trial::{every_cap, Operation, Trial};
use govorun_tests::{cp1251, hex, unit, Answer, Refusal};

/// What a text must be read as.
fn is_read(text: &str) {
    let read = read_utf8(text.as_bytes(), text.len());
    assert_eq!(read, Ok(cp1251(text)), "{text}");
}

/// The place of the sequence that is not taken.
fn untaken_at(text: impl AsRef<[u8]>) -> usize {
    let refusal = read_utf8(text.as_ref(), usize::MAX).expect_err("a text that is not taken");
    assert_eq!(refusal.number, 13);
    refusal.place
}

#[test]
fn sentences() {
    is_read("Лесна*я, две*!");
    is_read("ду*б ра*д#са*д");
    is_read("\"Заре*чная\" - 'Ёлкино' (ста*рый); лю*к: где* вода*?..");
    is_read(TAKEN);
}

#[test]
fn each_character_becomes_its_own_byte() {
    let one = |text: &str| read_utf8(text.as_bytes(), 1).expect("a character that is taken")[0];
    let ends = ["а", "п", "р", "я", "ё", "А", "П", "Р", "Я", "Ё"].map(one);
    let expected = [0xE0, 0xEF, 0xF0, 0xFF, 0xB8, 0xC0, 0xCF, 0xD0, 0xDF, 0xA8];
    assert_eq!(ends, expected);
    for plain in b"* #.,;:?!-()\"'" {
        assert_eq!(read_utf8(&[*plain], 1), Ok(vec![*plain]));
    }
}

/// Nothing of the numbers 1 to 10 is looked for, and nothing is edited.
#[test]
fn texts_that_are_no_messages() {
    for text in [
        "", " ", "#", "...", "а  б", "*", "б**", "ьа", "бьъ", "бък", "а*ья", "-а-",
    ] {
        is_read(text);
    }
    is_read(&"а".repeat(65));
    is_read(&"а".repeat(4097));
    is_read(&", ".repeat(5000));
}

#[test]
fn sequences_that_are_not_taken() {
    assert_eq!(untaken_at("ду*б☃"), 7);
    assert_eq!(untaken_at("вода*\n"), 9);
    assert_eq!(untaken_at("а7"), 2);
    assert_eq!(untaken_at("вода\u{301}"), 8);
    // Letters that are no Russian ones, and one that is written as two characters.
    assert_eq!(untaken_at("Київ"), 4);
    assert_eq!(untaken_at("ѐ"), 0);
    assert_eq!(untaken_at("ЁЀ"), 2);
    assert_eq!(untaken_at("май".replace('й', "и\u{306}")), 6);
    // What a text may begin with elsewhere; gaps and dashes of print.
    assert_eq!(untaken_at("\u{FEFF}а"), 0);
    assert_eq!(untaken_at("а\u{A0}б"), 2);
    assert_eq!(untaken_at("а - б – в"), 8);
    // The same letters in Windows-1251.
    assert_eq!(untaken_at(cp1251("ду*б")), 0);
}

#[test]
fn malformed_sequences() {
    assert_eq!(untaken_at(b" \xB0"), 1);
    assert_eq!(untaken_at(b"\xD0\xB0\xB0"), 2);
    assert_eq!(untaken_at(b"\xD0"), 0);
    assert_eq!(untaken_at(b"\xD0\xB0\xD1"), 2);
    assert_eq!(untaken_at(b"\xD0 \xD0\xB0"), 0);
    assert_eq!(untaken_at(b"\xD0\xD0\xB0"), 0);
    // A gap and а in more bytes than they take.
    assert_eq!(untaken_at(b" \xC0\xA0"), 1);
    assert_eq!(untaken_at(b"\xE0\x90\xB0"), 0);
    assert_eq!(untaken_at(b"\xF0\x80\x90\xB0"), 0);
    // A surrogate, and a number above the last one.
    assert_eq!(untaken_at(b"*\xED\xA0\x80"), 1);
    assert_eq!(untaken_at(b"#\xF4\x90\x80\x80"), 1);
}

#[test]
fn answers_and_lent_output() {
    let answer = Answer::without_cuts;
    let tried = |text: &str, before: &[u8]| lent(Operation::ReadUtf8, text.as_bytes(), before);
    let written = cp1251("Ё, я");
    let longer = [&written[..], &[9, 9]].concat();
    assert_eq!(tried("Ё, я", &[9; 6]), (answer(0, 0, 4), longer));
    assert_eq!(tried("Ё, я", &[9; 4]), (answer(0, 0, 4), written));
    assert_eq!(tried("Ё, я", &[9; 3]), (answer(11, 4, 0), vec![9; 3]));
    assert_eq!(tried("Ё, я", &[]), (answer(11, 4, 0), vec![]));
    // 13 comes first, wherever the output ends.
    assert_eq!(tried("Ё, я7", &[9; 9]), (answer(13, 6, 0), vec![9; 9]));
    assert_eq!(tried("Ё, я7", &[9; 1]), (answer(13, 6, 0), vec![9; 1]));
    assert_eq!(tried("Ё, я7", &[]), (answer(13, 6, 0), vec![]));
    assert_eq!(tried("", &[9]), (answer(0, 0, 0), vec![9]));
    assert_eq!(tried("", &[]), (answer(0, 0, 0), vec![]));
}

/// The check says afterwards what the reader did not.
#[test]
fn places_and_lengths_afterwards() {
    let checked = |text: &str| {
        let read = read_utf8(text.as_bytes(), usize::MAX).expect("a text that is taken");
        check(&read).map_err(|refusal| (refusal.number, refusal.place))
    };
    assert_eq!(checked(""), Err((1, 0)));
    assert_eq!(checked("вода*, б"), Err((3, 5)));
    assert_eq!(checked("вода* б*"), Err((5, 7)));
    assert_eq!(checked(&"а ".repeat(2048)), Err((4, 4095)));
    assert_eq!(checked(&"а ".repeat(2049)), Err((2, 0)));
}

/// What the reader must answer, by way of Rust's own strings.
fn read_by_str(text: &[u8]) -> Result<Vec<u8>, Refusal> {
    let valid = text.utf8_chunks().next().map_or("", |chunk| chunk.valid());
    let other = valid.find(|character| !TAKEN.contains(character));
    let place = other.unwrap_or(valid.len());
    if place < text.len() {
        return Err(Refusal::new(13, place));
    }
    Ok(cp1251(valid))
}

/// The reader on a short text, with no output and with as much as the text has.
fn agrees_with_str(text: &[u8]) {
    let trial = Trial::new(Operation::ReadUtf8, text);
    let by_str = read_by_str(text).map(|read| (read, 0));
    assert_eq!(trial.whole(), &by_str, "{}", hex(text));
    for cap in [0, text.len()] {
        let mut memory = [0xAA; 12];
        let (before, rest) = memory.split_at_mut(4);
        let (out, after) = rest.split_at_mut(cap);
        let tried = trial.in_place(text, out);
        tried.unwrap_or_else(|difference| panic!("{difference}"));
        let mut around = before.iter().chain(after.iter());
        assert!(around.all(|&byte| byte == 0xAA), "{}", hex(text));
    }
}

#[test]
fn every_text_of_up_to_three_bytes() {
    let every_byte: Vec<u8> = (0..=255).collect();
    let mut count = 0;
    every_string(&every_byte, 3, &mut |text| {
        agrees_with_str(text);
        count += 1;
    });
    assert_eq!(count, 1 + 256 + 65_536 + 16_777_216);
}

/// The ends of all ranges that RFC 3629 or the papers tell apart, and some bytes between.
const BYTES_THAT_MATTER: &[u8] = b"\x00\n *#.a\x7F\x80\x81\x8F\x90\x91\x9F\xA0\xAF\xB0\xB8\xBF\xC0\
    \xC1\xC2\xCF\xD0\xD1\xD2\xDF\xE0\xE1\xEC\xED\xEE\xEF\xF0\xF1\xF3\xF4\xF5\xF7\xF8\xFF";

#[test]
fn every_text_of_four_bytes_that_matter() {
    every_string(BYTES_THAT_MATTER, 4, &mut agrees_with_str);
}

#[test]
fn every_sequence_of_four_bytes() {
    for first in 0xF0..=0xF7 {
        for bits in 0..1_u32 << 18 {
            let byte = |from: u32| 0x80 | (bits >> from & 0x3F) as u8;
            agrees_with_str(&[first, byte(12), byte(6), byte(0)]);
        }
    }
}

#[test]
fn eighty_characters_are_taken_and_no_other() {
    let mut count = 0;
    for character in '\0'..=char::MAX {
        let text = character.to_string();
        agrees_with_str(text.as_bytes());
        count += usize::from(unit::read_utf8(text.as_bytes(), &mut [0]).number == 0);
    }
    assert_eq!(count, 80);
}

/// The reader on a text, with outputs of all lengths that matter.
fn agrees(rng: &mut Rng, text: &[u8]) {
    let tried = every_cap(rng, Operation::ReadUtf8, text);
    tried.unwrap_or_else(|difference| panic!("{difference}"));
}

#[test]
fn outputs_of_every_length() {
    let mut rng = Rng::for_test(90);
    let every_byte: Vec<u8> = (0..=255).collect();
    every_string(&every_byte, 2, &mut |text| {
        agrees(&mut rng, text);
        agrees(&mut rng, &["а".as_bytes(), text, "*".as_bytes()].concat());
    });
    every_string(BYTES_THAT_MATTER, 3, &mut |text| {
        agrees(&mut rng, &["Ё".as_bytes(), text, "я".as_bytes()].concat());
    });
    for one in TAKEN.chars() {
        for other in TAKEN.chars() {
            agrees(&mut rng, format!("{one}{other}").as_bytes());
        }
    }
}

#[test]
fn texts_of_broken_letters() {
    let mut rng = Rng::for_test(91);
    for _ in 0..50_000 {
        let alphabet: &[u8] = rng.pick(&[b"\xD0\xB0", b"\xD0\xD1\x81\x90 ", b"\xD1\x80\x91\xE0*"]);
        let length = rng.below(12);
        let start = rng.below(20);
        let start = taken(&mut rng, start);
        let broken = string(&mut rng, alphabet, length);
        agrees(&mut rng, &[start.as_bytes(), &broken].concat());
    }
}

/// What stands beside a wrong sequence: nothing, a little or much.
fn side(rng: &mut Rng) -> String {
    let longest = rng.pick(&[0, 1, 10, 10, 100, 100, 1000, 40_000]);
    let characters = rng.between(longest / 2, longest);
    taken(rng, characters)
}

/// Whatever comes after the first wrong sequence has no say.
#[test]
fn one_wrong_sequence_or_two_in_a_text() {
    let mut rng = Rng::for_test(92);
    let sequences = untaken();
    for sequence in &sequences {
        for _ in 0..40 {
            let (before, after) = (side(&mut rng), side(&mut rng));
            let second = &sequences[rng.below(sequences.len())];
            let second = if rng.one_in(3) { &second[..] } else { &[] };
            let text = [before.as_bytes(), sequence, after.as_bytes(), second].concat();
            refused_at(&mut rng, &text, before.len(), before.chars().count());
        }
    }
}

/// The place must be this one, with no output too and wherever the output ends.
fn refused_at(rng: &mut Rng, text: &[u8], place: usize, characters: usize) {
    let trial = Trial::new(Operation::ReadUtf8, text);
    let refused = Err(Refusal::new(13, place));
    assert_eq!(trial.whole(), &refused, "{}", hex(text));
    let around = characters.saturating_sub(1)..=characters + 1;
    for cap in around.chain([0, 1, text.len()]) {
        let tried = trial.with_output(rng, cap);
        tried.unwrap_or_else(|difference| panic!("{difference}"));
    }
}

#[test]
fn long_texts() {
    let mut rng = Rng::for_test(93);
    for characters in [
        4096, 4097, 32_768, 65_535, 65_536, 65_537, 200_000, 1_000_000,
    ] {
        let text = taken(&mut rng, characters).into_bytes();
        let trial = Trial::new(Operation::ReadUtf8, &text);
        assert_eq!(trial.length(), characters);
        let tried = trial.with_text_outputs(&mut rng);
        tried.unwrap_or_else(|difference| panic!("{difference}"));
    }
}

/// Where a sequence is cut short by the end of the text, its next byte would be behind the fence.
#[test]
fn nothing_outside_is_touched() {
    const LONGEST: usize = 20_000;
    let mut rng = Rng::for_test(94);
    let (mut texts, mut outputs) = (Fenced::new(LONGEST), Fenced::new(LONGEST + 2));
    let sequences = untaken();
    for round in 0..8000 {
        let longest = if rng.one_in(20) { 9000 } else { 20 };
        let characters = rng.below(longest);
        let mut text = taken(&mut rng, characters).into_bytes();
        if rng.one_in(2) {
            text.extend(&sequences[rng.below(sequences.len())]);
        }
        let (side, output_side) = (SIDES[round % 2], SIDES[round / 2 % 2]);
        let placed = side(&mut texts, text.len());
        placed.copy_from_slice(&text);
        let trial = Trial::new(Operation::ReadUtf8, &text);
        let tried = trial.within_fences(placed, output_side, &mut outputs);
        tried.unwrap_or_else(|difference| panic!("{difference}"));
    }
}

/// A little above this, the lower 32 bits alone would be another length or place that matters.
const HUGE: usize = 1 << 32;

fn is_refused(text: &[u8], refusal: Refusal) {
    let mut out = [9; 8];
    let answer = Answer::from(unit::read_utf8(text, &mut out));
    assert_eq!((answer.refusal(), answer.length), (Some(refusal), 0));
    assert_eq!(out, [9; 8]);
}

#[test]
fn places_above_32_bits() {
    let mut memory = Fenced::filled(HUGE + 4, "а".as_bytes());
    let text = memory.first(HUGE + 4);
    text[HUGE + 2] = b'7';
    is_refused(text, Refusal::new(13, HUGE + 2));
    text[4] = b'7';
    is_refused(text, Refusal::new(13, 4));
}

#[test]
fn lengths_above_32_bits() {
    let mut memory = Fenced::filled(HUGE + 4, b" ");
    is_refused(memory.first(HUGE + 4), Refusal::new(11, HUGE + 4));
    let read = unit::read_utf8("а, б".as_bytes(), memory.last(HUGE));
    assert_eq!((read.number, read.length), (0, 4));
}
