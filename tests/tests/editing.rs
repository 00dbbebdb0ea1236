//! The editor: worked examples, all short texts over the bytes that it knows, long random ones, and
//! what holds of every edited text.

use govorun_tests::agreed::{check, edit, lent, print, tape};
use govorun_tests::fence::{Fenced, SIDES};
use govorun_tests::gen::noise::{every_string, string};
use govorun_tests::gen::punctuated::{BREAKS, GAPS, PAUSES};
use govorun_tests::gen::{message, message_of_any_length, punctuated, Rng};
use govorun_tests::trial::{every_cap, Operation, Trial};
use govorun_tests::{cp1251, hex, unit, Answer, Refusal};

/// What a text must become.
fn becomes(text: &str, expected: &str) {
    let edited = edit(&cp1251(text), usize::MAX);
    assert_eq!(edited, Ok(cp1251(expected)), "{text}");
}

#[test]
fn sentences() {
    becomes("Насо*сная, ста*нция.", "Насо*сная#ста*нция");
    becomes("Где* вода*?!", "Где* вода*");
    becomes("вода*... мно*го!", "вода*#мно*го");
    becomes("насо*с; лю*к: щи*т", "насо*с#лю*к#щи*т");
    becomes("Йошка*р-Ола*", "Йошка*р Ола*");
    becomes("лю*к (ста*рый), щи*т", "лю*к ста*рый#щи*т");
    becomes("\"Заре*чная\" - 'Лесна*я'", "Заре*чная Лесна*я");
    becomes("насо*с, - вода*", "насо*с#вода*");
    becomes("ду*б ра*д", "ду*б ра*д");
}

#[test]
fn each_mark() {
    for (marks, one) in [(".,;:?!#", "#"), ("-()\"' ", " ")] {
        for mark in marks.chars() {
            becomes(&format!("а{mark}б"), &format!("а{one}б"));
            becomes(&format!("{mark}а{mark}"), "а");
            becomes(&format!("{mark}"), "");
        }
    }
}

#[test]
fn runs() {
    becomes("а  б", "а б");
    becomes("а-(\"' )б", "а б");
    becomes("а##б", "а#б");
    // A pause decides, wherever it stands and whether it was a mark or not.
    for run in [", ", " ,", " , ", "# ", " #", "-#-", "-.-", "#.", ".#"] {
        becomes(&format!("а{run}б"), "а#б");
    }
    // Whatever is no break parts two runs.
    becomes("а ,7- б", "а#7 б");
    becomes("а ,*- б", "а#* б");
    becomes("а.\n б", "а#\n б");
}

#[test]
fn long_runs() {
    for length in [255, 256, 4096, 65_535, 65_536, 200_000] {
        let gaps = " ".repeat(length);
        becomes(&format!("а{gaps}б"), "а б");
        becomes(&format!("а,{gaps}б"), "а#б");
        becomes(&format!("а{gaps},б"), "а#б");
        becomes(&format!("{gaps}а{gaps}"), "а");
    }
}

#[test]
fn ends() {
    becomes("  а", "а");
    becomes("а  ", "а");
    becomes("(.а б,)", "а б");
    becomes("... 7 ...", "7");
    becomes("", "");
    becomes("- # -", "");
}

/// Bytes that the check refuses later pass too.
#[test]
fn every_other_byte_passes() {
    for byte in (0..=255).filter(|byte| !BREAKS.contains(byte)) {
        assert_eq!(edit(&[byte], 1), Ok(vec![byte]));
        let text = [b'.', byte, byte, b' ', byte, b'-'];
        assert_eq!(edit(&text, 6), Ok(vec![byte, byte, b' ', byte]));
    }
}

#[test]
fn answers_and_lent_output() {
    let answer = Answer::without_cuts;
    let tried = |text, before: &[u8]| lent(Operation::Edit, &cp1251(text), before);
    let written = cp1251("а#7");
    let longer = [&written[..], &[9, 9]].concat();
    assert_eq!(tried("(а, 7)", &[9; 5]), (answer(0, 0, 3), longer));
    assert_eq!(tried("(а, 7)", &[9; 3]), (answer(0, 0, 3), written));
    assert_eq!(tried("(а, 7)", &[9; 2]), (answer(11, 3, 0), vec![9; 2]));
    assert_eq!(tried("(а, 7)", &[]), (answer(11, 3, 0), vec![]));
    assert_eq!(tried(".", &[9]), (answer(0, 0, 0), vec![9]));
    assert_eq!(tried("", &[]), (answer(0, 0, 0), vec![]));
}

/// The check counts in the edited message.
#[test]
fn places_and_lengths_afterwards() {
    let checked = |text: &str| {
        let edited = edit(&cp1251(text), usize::MAX).expect("room enough");
        check(&edited).map_err(|refusal| (refusal.number, refusal.place))
    };
    assert_eq!(checked("\"Во*лга\": 7"), Err((3, 7)));
    assert_eq!(checked("- а, б*"), Err((5, 3)));
    assert_eq!(checked("(...)"), Err((1, 0)));
    assert_eq!(checked(&"а!".repeat(2049)), Err((2, 0)));
    assert!(checked(&"а!".repeat(2048)).is_ok());
    assert!(checked(&"а, ".repeat(2048)).is_ok());
}

#[test]
fn the_program_does_not_edit() {
    assert_eq!(print(&cp1251("вода*, вода*")), "refused 3 at 5\n");
    assert_eq!(print(&cp1251("вода* ")), "refused 4 at 5\n");
}

/// The editor on a text, with outputs of all lengths that matter.
fn agrees(rng: &mut Rng, text: &[u8]) {
    let tried = every_cap(rng, Operation::Edit, text);
    tried.unwrap_or_else(|difference| panic!("{difference}"));
}

#[test]
fn every_text_of_up_to_five_known_bytes() {
    let mut rng = Rng::for_test(80);
    let alphabet = [BREAKS, b"\xE07"].concat();
    let mut count = 0;
    every_string(&alphabet, 5, &mut |text| {
        agrees(&mut rng, text);
        count += 1;
    });
    assert_eq!(count, 1 + 15 + 225 + 3375 + 50_625 + 759_375);
}

#[test]
fn every_text_of_up_to_two_bytes() {
    let mut rng = Rng::for_test(81);
    let every_byte: Vec<u8> = (0..=255).collect();
    every_string(&every_byte, 2, &mut |text| {
        agrees(&mut rng, text);
        agrees(&mut rng, &[b"\xE0", text, b"\xE1"].concat());
    });
}

/// From words with hardly a break to hardly anything but breaks: how many bytes of a thousand.
const SHARES: [usize; 8] = [1, 20, 200, 500, 800, 980, 999, 1000];

/// A text with this share of bytes that are breaks or become some.
fn text(rng: &mut Rng, length: usize, share: usize) -> Vec<u8> {
    let breaks = rng.pick(&[GAPS, PAUSES, BREAKS]);
    let others = rng.pick(&[b"\xE0\xE1*", b"\xFF\x007", b"\n\xA0+"]);
    let byte = |rng: &mut Rng| match rng.below(1000) {
        below if below < share => rng.pick(breaks),
        _ if rng.one_in(20) => rng.bits() as u8,
        _ => rng.pick(others),
    };
    (0..length).map(|_| byte(rng)).collect()
}

#[test]
fn long_texts() {
    let mut rng = Rng::for_test(82);
    for round in 0..400 {
        let longest = rng.pick(&[300, 5000, 20_000, 100_000]);
        let length = rng.between(1, longest);
        let text = text(&mut rng, length, SHARES[round % 8]);
        let trial = Trial::new(Operation::Edit, &text);
        let tried = trial.with_text_outputs(&mut rng);
        tried.unwrap_or_else(|difference| panic!("{difference}"));
    }
}

/// Each break of a message becomes a run, some of them thousands of bytes long.
#[test]
fn texts_with_a_known_edited_form() {
    let mut rng = Rng::for_test(83);
    for round in 0..10_000 {
        let longest = if round % 100 == 0 { 5000 } else { 6 };
        let length = rng.between(1, 120);
        let msg = message(&mut rng, length);
        let text = punctuated(&mut rng, &msg, longest);
        let short = Refusal::new(11, length);
        assert_eq!(edit(&text, length - 1), Err(short), "{}", hex(&text));
        assert_eq!(edit(&text, length), Ok(msg), "{}", hex(&text));
    }
}

#[test]
fn nothing_outside_is_touched() {
    const LONGEST: usize = 9000;
    let mut rng = Rng::for_test(84);
    let (mut texts, mut outputs) = (Fenced::new(LONGEST), Fenced::new(LONGEST + 2));
    for round in 0..8000 {
        let longest = if rng.one_in(10) { LONGEST } else { 40 };
        let length = rng.below(longest + 1);
        let text = text(&mut rng, length, SHARES[round / 4 % 8]);
        let (side, output_side) = (SIDES[round % 2], SIDES[round / 2 % 2]);
        let placed = side(&mut texts, length);
        placed.copy_from_slice(&text);
        let trial = Trial::new(Operation::Edit, &text);
        let tried = trial.within_fences(placed, output_side, &mut outputs);
        tried.unwrap_or_else(|difference| panic!("{difference}"));
    }
}

/// What the library makes of a text. As much output is lent as the text is long, which must do.
fn edited(text: &[u8]) -> Vec<u8> {
    let mut out = vec![0xAA; text.len()];
    let answer = unit::edit(text, &mut out);
    assert_eq!((answer.number, answer.place), (0, 0), "{}", hex(text));
    assert!(answer.length <= text.len(), "{}", hex(text));
    out.truncate(answer.length);
    out
}

/// Editing again changes nothing, and number 4 fits no edited text.
fn is_settled(text: &[u8]) {
    let once = edited(text);
    assert_eq!(edited(&once), once, "{}", hex(text));
    assert_ne!(unit::check(&once).number, 4, "{}", hex(text));
}

#[test]
fn an_edited_text_is_settled() {
    every_string(&cp1251("а7 #.-"), 6, &mut is_settled);
    let mut rng = Rng::for_test(85);
    for round in 0..20_000 {
        let longest = if round % 100 == 0 { 50_000 } else { 60 };
        let length = rng.below(longest);
        is_settled(&text(&mut rng, length, SHARES[round % 8]));
    }
}

#[test]
fn an_accepted_message_is_its_own_edited_form() {
    let mut rng = Rng::for_test(86);
    for _ in 0..5000 {
        let msg = message_of_any_length(&mut rng);
        assert_eq!(edited(&msg), msg, "{}", hex(&msg));
    }
}

/// Longer than any message before it is edited, and as long as the longest afterwards, or too long
/// by one byte.
#[test]
fn long_texts_with_a_short_edited_form() {
    let mut rng = Rng::for_test(87);
    for round in 0..200 {
        let msg = message(&mut rng, 4096 + round % 2);
        let text = punctuated(&mut rng, &msg, 9);
        assert_eq!(check(&text), Err(Refusal::new(2, 0)));
        let edited = edited(&text);
        assert_eq!(edited, msg);
        assert_eq!(tape(&edited, usize::MAX).is_ok(), round % 2 == 0);
    }
}

#[test]
fn texts_of_breaks_alone() {
    let mut rng = Rng::for_test(88);
    for length in (0..100).chain([4096, 4097, 100_000]) {
        for breaks in [GAPS, PAUSES, BREAKS] {
            let text = string(&mut rng, breaks, length);
            assert_eq!(edited(&text), [], "{}", hex(&text));
            assert_eq!(edit(&text, 0), Ok(vec![]), "{}", hex(&text));
        }
    }
    assert_eq!(check(&[]), Err(Refusal::new(1, 0)));
}

/// Lengths whose lower 32 bits alone would be other lengths that matter.
#[test]
fn lengths_above_32_bits() {
    const HUGE: usize = 1 << 32;
    let mut memory = Fenced::new(HUGE + 3);
    let mut out = [9; 8];
    // The memory is zeros, which pass as they are.
    let refused = unit::Text {
        number: 11,
        place: HUGE + 3,
        length: 0,
    };
    assert_eq!(unit::edit(memory.first(HUGE + 3), &mut out), refused);
    assert_eq!(out, [9; 8]);
    assert_eq!(unit::edit(&cp1251("а, б"), memory.last(HUGE)).length, 3);
}
