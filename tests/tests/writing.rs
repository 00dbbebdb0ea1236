//! The writer of UTF-8: worked examples, refusals, and its law beside the reader: what is written
//! is read as it was, and what is read and is a message is written as it was.

use govorun_tests::agreed::{check, edit, lent, write_utf8};
use govorun_tests::gen::damaged::SPOTS;
use govorun_tests::gen::noise::every_string;
use govorun_tests::gen::utf8::{taken, TAKEN};
use govorun_tests::gen::{damaged, extreme_messages, message_of_any_length, punctuated, Rng};
use govorun_tests::trial::{every_cap, Operation};
use govorun_tests::{cp1251, hex, unit, utf8, Answer, Refusal};

/// What the message of a text must be written as: the text.
fn is_written(text: &str) {
    let msg = cp1251(text);
    assert_eq!(write_utf8(&msg, usize::MAX), Ok(text.into()), "{text}");
    assert_eq!(write_utf8(&msg, text.len()), Ok(text.into()), "{text}");
    let short = Refusal::new(11, text.len());
    assert_eq!(write_utf8(&msg, text.len() - 1), Err(short), "{text}");
    assert_eq!(write_utf8(&msg, 0), Err(short), "{text}");
}

#[test]
fn messages() {
    is_written("ду*б ра*д");
    is_written("Лесна*я две*#ста*нция");
    is_written("ЁЛКИНО ёлкино Ёлкино еЕ#р п Р П");
    is_written("а");
    is_written(&["Я".repeat(64), "ё*".repeat(64)].join("#"));
}

#[test]
fn each_letter_as_it_stands() {
    let letters = TAKEN.chars().filter(|letter| letter.is_alphabetic());
    let texts: Vec<String> = letters.map(|letter| format!("а{letter}")).collect();
    assert_eq!(texts.len(), 66);
    texts.iter().for_each(|text| is_written(text));
}

#[test]
fn refusals_of_the_check_come_first() {
    let refused = |text: &str, cap| {
        let refusal = write_utf8(&cp1251(text), cap).expect_err("a refused message");
        (refusal.number, refusal.place)
    };
    for cap in [0, 1, usize::MAX] {
        assert_eq!(refused("", cap), (1, 0));
        assert_eq!(refused(&"а".repeat(4097), cap), (2, 0));
        assert_eq!(refused("а7", cap), (3, 1));
        assert_eq!(refused("вода*, вода*", cap), (3, 5));
        assert_eq!(refused("а#", cap), (4, 1));
        assert_eq!(refused("б*", cap), (5, 1));
        assert_eq!(refused("ьа", cap), (6, 0));
        assert_eq!(refused("бьъ", cap), (7, 2));
        assert_eq!(refused("бък", cap), (8, 2));
        assert_eq!(refused("а*ья", cap), (9, 3));
        assert_eq!(refused(&"а".repeat(65), cap), (10, 64));
    }
}

#[test]
fn answers_and_lent_output() {
    let answer = Answer::without_cuts;
    let tried = |text: &str, before: &[u8]| lent(Operation::WriteUtf8, &cp1251(text), before);
    let written = "Ё#я*".as_bytes().to_vec();
    let longer = [&written[..], &[9, 9]].concat();
    assert_eq!(tried("Ё#я*", &[9; 8]), (answer(0, 0, 6), longer));
    assert_eq!(tried("Ё#я*", &[9; 6]), (answer(0, 0, 6), written));
    assert_eq!(tried("Ё#я*", &[9; 5]), (answer(11, 6, 0), vec![9; 5]));
    assert_eq!(tried("Ё#я*", &[]), (answer(11, 6, 0), vec![]));
    assert_eq!(tried("Ё#", &[9; 8]), (answer(4, 1, 0), vec![9; 8]));
    assert_eq!(tried("", &[9]), (answer(1, 0, 0), vec![9]));
}

/// What the library writes of a message. Twice as many bytes as the message has must do.
fn written(msg: &[u8]) -> Vec<u8> {
    let mut out = vec![0xAA; 2 * msg.len()];
    let answer = unit::write_utf8(msg, &mut out);
    let (number, place, live) = (answer.number, answer.place, answer.live);
    assert_eq!((number, place, live), (0, 0, 0), "{}", hex(msg));
    out.truncate(answer.length as usize);
    out
}

/// What the library reads of a text. As many bytes as the text has must do.
fn read(text: &[u8]) -> Vec<u8> {
    let mut out = vec![0x55; text.len()];
    let answer = unit::read_utf8(text, &mut out);
    assert_eq!((answer.number, answer.place), (0, 0), "{}", hex(text));
    out.truncate(answer.length);
    out
}

/// What is written has the letters of the message, and is read as the message.
fn comes_back(msg: &[u8]) {
    let text = String::from_utf8(written(msg)).expect("UTF-8");
    assert_eq!(cp1251(&text), msg, "{}", hex(msg));
    assert_eq!(read(text.as_bytes()), msg, "{}", hex(msg));
}

#[test]
fn written_messages_are_read_as_they_were() {
    let mut rng = Rng::for_test(100);
    for _ in 0..100_000 {
        comes_back(&message_of_any_length(&mut rng));
    }
    extreme_messages(&mut rng, 20)
        .iter()
        .for_each(|msg| comes_back(msg));
}

/// If what is read of a text is a message, it is written as the text was.
fn goes_back(text: &[u8]) -> bool {
    let msg = read(text);
    let accepted = unit::check(&msg).number == 0;
    if accepted {
        assert_eq!(written(&msg), text, "{}", hex(text));
    }
    accepted
}

#[test]
fn texts_that_are_messages_are_written_as_they_were() {
    let mut count = 0;
    every_string(&cp1251("аЯЁёрБь* #,"), 5, &mut |bytes| {
        count += usize::from(goes_back(&utf8::written(bytes)));
    });
    let mut rng = Rng::for_test(101);
    for _ in 0..100_000 {
        let length = rng.between(1, 12);
        let text = taken(&mut rng, length);
        count += usize::from(goes_back(text.as_bytes()));
    }
    println!("{count} messages");
    assert!(count >= 60_000);
}

/// The way of a dispatcher's sentence: read, edited, and shown as it was understood.
#[test]
fn sentences_are_shown_as_they_are_understood() {
    let mut rng = Rng::for_test(102);
    for _ in 0..5000 {
        let msg = message_of_any_length(&mut rng);
        let shown = written(&msg);
        let sentence = punctuated(&mut rng, &shown, 4);
        let understood = edit(&read(&sentence), usize::MAX).expect("room enough");
        assert_eq!(written(&understood), shown, "{}", hex(&sentence));
    }
}

/// The writer with an output of so many bytes must refuse a message so, and leave the output.
fn is_refused(msg: &[u8], refusal: Refusal, cap: usize) {
    let mut out = vec![0xAA; cap];
    let answer = Answer::from(unit::write_utf8(msg, &mut out));
    assert_eq!(answer.refusal(), Some(refusal), "{}", hex(msg));
    assert_eq!((answer.length, answer.live), (0, 0), "{}", hex(msg));
    assert!(out.iter().all(|&byte| byte == 0xAA), "{}", hex(msg));
}

#[test]
fn messages_are_refused_as_by_the_check() {
    let mut rng = Rng::for_test(103);
    for number in 1..=10 {
        for spot in SPOTS {
            for _ in 0..500 {
                let (msg, _) = damaged(&mut rng, number, spot);
                let refusal = check(&msg).expect_err("a refused message");
                is_refused(&msg, refusal, 2 * msg.len());
                is_refused(&msg, refusal, 0);
            }
        }
    }
}

#[test]
fn outputs_of_every_length() {
    let mut rng = Rng::for_test(104);
    every_string(&cp1251("аЁЯрь* #7"), 5, &mut |msg| {
        let tried = every_cap(&mut rng, Operation::WriteUtf8, msg);
        tried.unwrap_or_else(|difference| panic!("{difference}"));
    });
}

/// A letter takes two bytes, whatever else there is one.
#[test]
fn the_longest_written_message() {
    let msg = cp1251(&[&"Щ".repeat(64)[..]; 63].join(" "));
    assert_eq!((msg.len(), written(&msg).len()), (4094, 2 * 4094 - 62));
}
