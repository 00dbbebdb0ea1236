//! The two editions, request 8 of document 02: words whose codes are worked out by hand, and what
//! must hold between both tapes of a message, between both joins, refusals and additions.

use govorun_tests::agreed::{
    book_add_in, book_find, check, join_in, lent, live_places, tape_in, PAIR,
};
use govorun_tests::gen::cuts::BAD_CUTS;
use govorun_tests::gen::damaged::SPOTS;
use govorun_tests::gen::{bad_cuts, damaged, good_cuts, message, message_of_any_length, Rng};
use govorun_tests::message::breaks;
use govorun_tests::transcription::made;
use govorun_tests::trial::Operation::{self, Join, Transcribe};
use govorun_tests::unit::{DISPATCH, PUMP, ROAD};
use govorun_tests::{cp1251, show, Edition, Refusal, EDITIONS};

/// Э1 and И1.
const FIRST_E: u8 = 8;
const FIRST_I: u8 = 10;

/// A message's tape in an edition.
fn taped(edition: Edition, msg: &[u8]) -> Vec<u8> {
    tape_in(edition, msg, usize::MAX).expect("an accepted message")
}

/// A text has these tapes in editions 1 and 2, in small letters and in capitals.
fn sounds(text: &str, one: &[u8], two: &[u8]) {
    for text in [text, &text.to_uppercase()] {
        let msg = cp1251(text);
        assert_eq!(taped(Edition::One, &msg), one, "{text}");
        assert_eq!(taped(Edition::Two, &msg), two, "{text}");
    }
}

/// A text has this tape in either edition.
fn sounds_the_same(text: &str, tape: &[u8]) {
    sounds(text, tape, tape);
}

#[test]
fn e_ya_and_a_of_level_1() {
    sounds("часы*", &[53, 8, 43, 4], &[53, 10, 43, 4]);
    sounds("щади*", &[56, 8, 25, 5], &[56, 10, 25, 5]);
    sounds("весна*", &[19, 8, 43, 37, 1], &[19, 10, 43, 37, 1]);
    sounds("мясни*к", &[36, 8, 44, 38, 5, 31], &[36, 10, 44, 38, 5, 31]);
    // Only the vowel right before the stressed one is of level 1.
    sounds(
        "переведи*",
        &[40, 13, 42, 13, 19, 8, 25, 5],
        &[40, 13, 42, 13, 19, 10, 25, 5],
    );
}

/// Before the vowel of a bare syllable and after a sign.
#[test]
fn a_glide_is_kept() {
    sounds("язы*к", &[28, 8, 29, 4, 31], &[28, 10, 29, 4, 31]);
    sounds("яйцо*", &[28, 8, 28, 51, 2], &[28, 10, 28, 51, 2]);
    sounds("езда*", &[28, 8, 29, 24, 1], &[28, 10, 29, 24, 1]);
    sounds(
        "пьяне*ть",
        &[40, 28, 8, 38, 3, 46],
        &[40, 28, 10, 38, 3, 46],
    );
    sounds(
        "поезда*",
        &[39, 12, 28, 8, 29, 24, 1],
        &[39, 12, 28, 10, 29, 24, 1],
    );
    sounds(
        "подъезжа*ть",
        &[39, 12, 24, 28, 8, 29, 26, 1, 46],
        &[39, 12, 24, 28, 10, 29, 26, 1, 46],
    );
}

/// As the first letter of a word е and я of level 2 are like those of level 1.
#[test]
fn first_letters_of_level_2() {
    sounds(
        "еретика*",
        &[28, 8, 42, 13, 46, 10, 31, 1],
        &[28, 10, 42, 13, 46, 10, 31, 1],
    );
    sounds(
        "языково*й",
        &[28, 8, 29, 9, 31, 7, 18, 2, 28],
        &[28, 10, 29, 9, 31, 7, 18, 2, 28],
    );
}

/// In a word without a mark every vowel is of level 1.
#[test]
fn words_without_a_mark() {
    sounds("яма", &[28, 8, 35, 7], &[28, 10, 35, 7]);
    sounds("тётя", &[46, 2, 46, 8], &[46, 2, 46, 10]);
    sounds_the_same("эхо", &[8, 49, 7]);
}

#[test]
fn what_e_makes_stays() {
    sounds_the_same("эта*ж", &[8, 45, 1, 55]);
    sounds_the_same("поэты*", &[39, 12, 8, 45, 4]);
    sounds_the_same("ды*м эта*жа", &[24, 4, 35, 0, 9, 45, 1, 26, 12]);
}

/// Other sounds of е, я and а, and И1 that и makes.
#[test]
fn other_sounds_stay() {
    sounds_the_same("жена*", &[26, 9, 37, 1]);
    sounds_the_same("цена*", &[51, 9, 37, 1]);
    sounds_the_same("ча*сто", &[53, 1, 43, 45, 12]);
    sounds_the_same("ве*чер", &[19, 3, 53, 13, 41]);
    sounds_the_same("пле*мя", &[39, 34, 3, 36, 13]);
    sounds_the_same("ты*сяча", &[45, 4, 44, 13, 53, 13]);
    sounds_the_same("вини*л", &[19, 10, 38, 5, 33]);
    sounds_the_same("вода*", &[18, 7, 24, 1]);
}

/// A text cut at these places has these joined tapes in editions 1 and 2, and as many live cuts in
/// either.
fn joins(text: &str, cuts: &[usize], live: usize, tapes: [&[u8]; 2]) {
    let msg = cp1251(text);
    for (edition, tape) in EDITIONS.into_iter().zip(tapes) {
        let joined = join_in(edition, &msg, cuts, usize::MAX).expect("good cuts");
        assert_eq!(joined.tape, tape, "{text} cut at {cuts:?}");
        assert_eq!(joined.live, live, "{text} cut at {cuts:?}");
    }
}

/// Voice comes back over the gap, from a part with a code that is another in edition 2.
#[test]
fn a_cut_that_is_live_by_voice() {
    sounds(
        "ша*г бегу*н",
        &[55, 1, 20, 0, 17, 8, 20, 6, 37],
        &[55, 1, 20, 0, 17, 10, 20, 6, 37],
    );
    let second: [&[u8]; 2] = [
        &[55, 1, 31, 0, 17, 8, 20, 6, 37],
        &[55, 1, 31, 0, 17, 10, 20, 6, 37],
    ];
    joins("ша*г бегу*н", &[4], 1, second);
}

/// The cut turns Ы1 to И1, which is then on both joined tapes.
#[test]
fn a_cut_that_is_live_by_an_opening_vowel() {
    let whole: [&[u8]; 2] = [
        &[44, 38, 3, 31, 0, 9, 0, 19, 8, 43, 37, 1],
        &[44, 38, 3, 31, 0, 9, 0, 19, 10, 43, 37, 1],
    ];
    let second: [&[u8]; 2] = [
        &[44, 38, 3, 31, 0, 10, 0, 19, 8, 43, 37, 1],
        &[44, 38, 3, 31, 0, 10, 0, 19, 10, 43, 37, 1],
    ];
    let text = "сне*г и весна*";
    sounds(text, whole[0], whole[1]);
    joins(text, &[], 0, whole);
    joins(text, &[7], 0, whole);
    joins(text, &[5], 1, second);
    joins(text, &[5, 7], 1, second);
}

#[test]
fn a_cut_at_a_pause() {
    let whole: [&[u8]; 2] = [
        &[19, 8, 43, 37, 1, 63, 53, 8, 43, 4],
        &[19, 10, 43, 37, 1, 63, 53, 10, 43, 4],
    ];
    joins("весна*#часы*", &[6], 0, whole);
}

/// The places at which two tapes differ; both have the same length.
fn differing(one: &[u8], two: &[u8]) -> Vec<usize> {
    assert_eq!(one.len(), two.len());
    (0..one.len()).filter(|&at| one[at] != two[at]).collect()
}

/// The places at which a tape of edition 1 has an Э1 that one of these letters has made.
fn first_e_made_by(letters: &str, msg: &[u8]) -> Vec<usize> {
    let made = made(Edition::One, msg);
    let is_wanted = |&at: &usize| made[at].code == FIRST_E && letters.contains(made[at].by);
    (0..made.len()).filter(is_wanted).collect()
}

#[test]
fn just_the_first_e_of_three_letters_is_moved() {
    let mut rng = Rng::for_test(180);
    let (mut moved, mut stayed) = (0, 0);
    for _ in 0..5000 {
        let msg = message_of_any_length(&mut rng);
        let [one, two] = EDITIONS.map(|edition| taped(edition, &msg));
        let counts = check(&msg).expect("an accepted message");
        assert_eq!([one.len(), two.len()], [counts.codes; 2], "{}", show(&msg));
        let places = differing(&one, &two);
        assert_eq!(places, first_e_made_by("еяа", &msg), "{}", show(&msg));
        for place in &places {
            assert_eq!((one[*place], two[*place]), (FIRST_E, FIRST_I));
        }
        moved += places.len();
        stayed += first_e_made_by("э", &msg).len();
    }
    println!("{moved} codes moved, {stayed} stayed");
    assert!(moved >= 10_000 && stayed >= 1_000);
}

/// Neither how many cuts are live nor which; and the joined tapes differ where the whole ones do.
#[test]
fn live_cuts_do_not_depend_on_the_edition() {
    let mut rng = Rng::for_test(181);
    let mut live = 0;
    for _ in 0..3000 {
        let msg = message_of_any_length(&mut rng);
        let [one, two] = PAIR.wholes(&msg).expect("an accepted message");
        let places = differing(&one, &two);
        let cuts = good_cuts(&mut rng, &msg);
        let [one, two] = EDITIONS.map(|edition| (PAIR.join)(edition, &msg, &cuts));
        assert_eq!(one.live, two.live, "{}", show(&msg));
        assert_eq!(differing(&one.tape, &two.tape), places, "{}", show(&msg));
        live += one.live;
    }
    println!("{live} live cuts");
    assert!(live >= 1_000);
}

#[test]
fn each_live_cut_is_live_in_both_editions() {
    let mut rng = Rng::for_test(182);
    for _ in 0..300 {
        let length = rng.between(1, 60);
        let msg = message(&mut rng, length);
        let [one, two] = EDITIONS.map(|edition| {
            let is_live = |&place: &usize| (PAIR.join)(edition, &msg, &[place]).live == 1;
            breaks(&msg).into_iter().filter(is_live).collect::<Vec<_>>()
        });
        assert_eq!(one, two, "{}", show(&msg));
        assert_eq!(one, live_places(&msg), "{}", show(&msg));
    }
}

/// Bytes that an output or a buffer holds before a call.
fn held(count: usize) -> Vec<u8> {
    (0..count).map(|index| index as u8 ^ 0xA5).collect()
}

/// An operation refuses a message so with an output of `cap` bytes, and leaves every byte of it.
fn refuses(operation: Operation, msg: &[u8], cap: usize, refusal: Refusal) {
    let before = held(cap);
    let (answer, after) = lent(operation, msg, &before);
    assert_eq!(answer.refusal(), Some(refusal), "{}", show(msg));
    assert_eq!((answer.length, answer.live), (0, 0), "{}", show(msg));
    assert_eq!(after, before, "{}", show(msg));
}

/// An addition to a book in a buffer is refused so in either edition, and leaves every byte of it.
fn addition_refused(listener: u32, buffer: &[u8], used: usize, msg: &[u8], refusal: Refusal) {
    for edition in EDITIONS {
        let mut after = buffer.to_vec();
        let added = book_add_in(listener, edition, &mut after, used, 5, 7, msg);
        assert_eq!(added, Err(refusal), "{edition:?} {}", show(msg));
        assert_eq!(after, buffer, "{edition:?} {}", show(msg));
    }
}

#[test]
fn messages_are_refused_alike() {
    let mut rng = Rng::for_test(183);
    for number in 1..=10 {
        for spot in SPOTS.repeat(20) {
            let (msg, refusal) = damaged(&mut rng, number, spot);
            let cap = rng.pick(&[0, 1, 2 * msg.len()]);
            for edition in EDITIONS {
                refuses(Transcribe(edition), &msg, cap, refusal);
                refuses(Join(edition, &[]), &msg, cap, refusal);
            }
            addition_refused(DISPATCH, &held(cap), 0, &msg, refusal);
        }
    }
}

#[test]
fn short_outputs_are_refused_alike() {
    let mut rng = Rng::for_test(184);
    for _ in 0..500 {
        let msg = message_of_any_length(&mut rng);
        let cuts = good_cuts(&mut rng, &msg);
        let codes = check(&msg).expect("an accepted message").codes;
        let refusal = Refusal::new(11, codes);
        for cap in [0, rng.below(codes), codes - 1] {
            for edition in EDITIONS {
                refuses(Transcribe(edition), &msg, cap, refusal);
                refuses(Join(edition, &cuts), &msg, cap, refusal);
            }
        }
    }
}

#[test]
fn bad_cuts_are_refused_alike() {
    let mut rng = Rng::for_test(185);
    for _ in 0..500 {
        let msg = message_of_any_length(&mut rng);
        for kind in BAD_CUTS {
            if let Some((cuts, index)) = bad_cuts(&mut rng, &msg, kind) {
                let refusal = Refusal::new(12, index);
                let cap = rng.pick(&[0, 2 * msg.len()]);
                for edition in EDITIONS {
                    refuses(Join(edition, &cuts), &msg, cap, refusal);
                }
            }
        }
    }
}

/// By the listener, the book, the number and the room.
#[test]
fn additions_are_refused_alike() {
    let msg = cp1251("часы*");
    // Phrase 4, `а`, for all, and room for a record of four codes.
    let sound = [&b"\x52\x9F\x04\x00\x07\x01\x00\x07"[..], &held(11)].concat();
    let fifth = [&b"\x52\x9F\x05\x00\x07\x01\x00\x07"[..], &held(11)].concat();
    for listener in [PUMP, ROAD, 3] {
        addition_refused(listener, &sound, 8, &msg, Refusal::new(17, 0));
    }
    addition_refused(DISPATCH, &sound, 7, &msg, Refusal::new(15, 0));
    addition_refused(DISPATCH, &sound, 9, &msg, Refusal::new(15, 8));
    addition_refused(DISPATCH, &fifth, 8, &msg, Refusal::new(16, 8));
    addition_refused(DISPATCH, &sound[..18], 8, &msg, Refusal::new(11, 19));
}

/// Each phrase is found as it was taped; its record does not say in which edition.
#[test]
fn a_book_of_both_editions() {
    let mut buffer = held(100);
    let mut used = 0;
    for (phrase, edition, text) in [
        (1, Edition::One, "часы*"),
        (2, Edition::Two, "часы*"),
        (3, Edition::Two, "эта*ж"),
        (5, Edition::Two, "весна*"),
        (8, Edition::One, "весна*"),
    ] {
        let msg = cp1251(text);
        let added = book_add_in(DISPATCH, edition, &mut buffer, used, phrase, 7, &msg);
        used = added.expect("an addition with room");
    }
    let book = [
        &b"\x52\x9F\x01\x00\x07\x04\x00\x35\x08\x2B\x04"[..],
        b"\x52\x9F\x02\x00\x07\x04\x00\x35\x0A\x2B\x04",
        b"\x52\x9F\x03\x00\x07\x04\x00\x08\x2D\x01\x37",
        b"\x52\x9F\x05\x00\x07\x05\x00\x13\x0A\x2B\x25\x01",
        b"\x52\x9F\x08\x00\x07\x05\x00\x13\x08\x2B\x25\x01",
    ];
    let book = book.concat();
    assert_eq!(buffer, [&book[..], &held(100)[book.len()..]].concat());
    let find = |phrase| book_find(ROAD, &buffer, used, phrase);
    assert_eq!(find(1), Ok(vec![53, 8, 43, 4]));
    assert_eq!(find(2), Ok(vec![53, 10, 43, 4]));
    assert_eq!(find(3), Ok(vec![8, 45, 1, 55]));
    assert_eq!(find(5), Ok(vec![19, 10, 43, 37, 1]));
    assert_eq!(find(8), Ok(vec![19, 8, 43, 37, 1]));
}
