//! The glide before a vowel, by a table told from the paper and request 4 of document 02: every
//! vowel after every letter that may stand before it, messages with as many glides as there can be,
//! in outputs of just the right length, and cuts beside words with о after ь.

use govorun_tests::agreed::{self, live_places, PAIR};
use govorun_tests::codes::code;
use govorun_tests::fence::{Fenced, Side, SIDES};
use govorun_tests::gen::every_list;
use govorun_tests::gen::noise::every_string;
use govorun_tests::message::breaks;
use govorun_tests::trial::Operation::{Join, Name, Transcribe};
use govorun_tests::trial::{Operation, Trial};
use govorun_tests::{cp1251, show, spell, Counts, Refusal, EDITIONS};

const VOWELS: &str = "аоуыэеёиюя";
const CONSONANTS: &str = "бвгджзйклмнпрстфхцчшщ";
const SIGNS: &str = "ъь";

const GLIDE: u8 = code("J");
const LONGEST: usize = 4096;
/// What an output holds before a call. No code and no name is this.
const UNTOUCHED: u8 = 0xAA;

/// The table: which vowels have a glide after this letter, or with none before them in their word.
fn gliding(before: Option<char>) -> &'static str {
    match before {
        Some('ь') => "еёюяио",
        Some('ъ') => "еёюяи",
        Some(letter) if CONSONANTS.contains(letter) => "",
        Some(_) | None => "еёюя",
    }
}

/// The letters of a word, small.
fn letters(word: &str) -> Vec<char> {
    word.to_lowercase().chars().filter(|&c| c != '*').collect()
}

/// How many codes a text must have that has no silent letters: one for each break and for each
/// letter but the signs, and one for each glide.
fn codes(text: &str) -> usize {
    let words = text.split([' ', '#']);
    words.map(|word| codes_of_word(word) + 1).sum::<usize>() - 1
}

fn codes_of_word(word: &str) -> usize {
    let mut before = None;
    let mut count = 0;
    for letter in letters(word) {
        count += usize::from(!SIGNS.contains(letter));
        count += usize::from(gliding(before).contains(letter));
        before = Some(letter);
    }
    count
}

/// The tape of a text, on which all implementations agree; its length is the one that the check
/// tells and the table asks for.
fn taped(text: &str) -> Vec<u8> {
    let msg = cp1251(text);
    let tape = agreed::tape(&msg, usize::MAX).expect("an accepted message");
    let counts = agreed::check(&msg).expect("an accepted message");
    assert_eq!([tape.len(), counts.codes], [codes(text); 2], "{text}");
    tape
}

/// The tapes of a text in both editions.
fn both_taped(text: &str) -> [Vec<u8>; 2] {
    let wholes = PAIR.wholes(&cp1251(text)).expect("an accepted message");
    assert_eq!(wholes[0], taped(text));
    wholes
}

/// What may stand before a vowel: nothing, any letter but a sign, a sign after any consonant.
fn heads() -> Vec<String> {
    let mut heads = vec![String::new()];
    heads.extend(VOWELS.chars().map(String::from));
    for consonant in CONSONANTS.chars() {
        let signs = ["", "ъ", "ь"];
        heads.extend(signs.map(|sign| format!("{consonant}{sign}")));
    }
    heads
}

/// What stands before the head and after the vowel, where that is marked.
const AROUND_MARKED: [(&str, &str); 3] = [("", "*"), ("", "*н"), ("ма", "*на")];

/// The same where it is not: at level 1, at level 2 before the mark and after it, and in words with
/// no mark.
const AROUND_PLAIN: [(&str, &str); 7] = [
    ("", "на*"),
    ("ма", "о*"),
    ("", "нана*"),
    ("ма*", ""),
    ("", ""),
    ("", "н"),
    ("ма", "на"),
];

/// A text in small letters and in capitals.
fn cases(text: &str) -> [String; 2] {
    [text.to_string(), text.to_uppercase()]
}

/// Holds a vowel to the table, with what stands before it and itself in either case.
fn glides_as_told(before: &str, vowel: char, after: &str) {
    let glides = gliding(letters(before).last().copied()).contains(vowel);
    for before in cases(before) {
        for vowel in cases(&vowel.to_string()) {
            let word = format!("{before}{vowel}{after}");
            let is_glide = taped(&word)[codes(&before)] == GLIDE;
            assert_eq!(is_glide, glides, "{word}");
        }
    }
}

#[test]
fn every_vowel_after_every_letter() {
    let heads = heads();
    assert_eq!(heads.len(), 1 + 10 + 3 * 21);
    for head in heads {
        for vowel in VOWELS.chars() {
            for (before, after) in AROUND_MARKED.iter().chain(&AROUND_PLAIN) {
                glides_as_told(&format!("{before}{head}"), vowel, after);
            }
        }
    }
}

/// With no mark on them о and а sound alike after a sign, but for the glide of о after ь, and alike
/// right after a consonant, but for ч щ й. So о makes nothing soft, and the glide leaves the sound
/// and the consonant before it as they are.
#[test]
fn the_glide_alone_tells_o_from_a() {
    for consonant in CONSONANTS.chars() {
        for (before, after) in AROUND_PLAIN {
            let head = format!("{before}{consonant}");
            let both = |sign| ["о", "а"].map(|vowel| taped(&format!("{head}{sign}{vowel}{after}")));
            let [mut with_o, with_a] = both("ь");
            let glide = with_o.remove(codes(&head));
            assert_eq!((glide, with_o), (GLIDE, with_a), "{head}ьо{after}");
            let [with_o, with_a] = both("ъ");
            assert_eq!(with_o, with_a, "{head}ъо{after}");
            if !"чщй".contains(consonant) {
                let [with_o, with_a] = both("");
                assert_eq!(with_o, with_a, "{head}о{after}");
            }
        }
    }
}

/// All operations refuse the text with number 9 at this place, and write nothing.
fn refused_with_9(text: &str, place: usize) {
    let msg = cp1251(text);
    let refusal = Refusal::new(9, place);
    assert_eq!(agreed::check(&msg), Err(refusal), "{text}");
    let tapes = EDITIONS.map(|edition| [Transcribe(edition), Join(edition, &[])]);
    for operation in [Name].into_iter().chain(tapes.into_iter().flatten()) {
        let (answer, out) = agreed::lent(operation, &msg, &[UNTOUCHED; 16]);
        assert_eq!(answer.refusal(), Some(refusal), "{text}");
        assert_eq!((answer.length, answer.live), (0, 0), "{text}");
        assert_eq!(out, [UNTOUCHED; 16], "{text}");
    }
}

#[test]
fn a_vowel_after_a_vowel_and_a_sign_is_refused() {
    for first in VOWELS.chars() {
        for sign in SIGNS.chars() {
            for second in VOWELS.chars() {
                for text in cases(&format!("{first}{sign}{second}")) {
                    refused_with_9(&text, 2);
                }
                for text in cases(&format!("б{first}*{sign}{second}*н")) {
                    refused_with_9(&text, 4);
                }
            }
        }
    }
}

#[test]
fn as_many_as_a_word_holds() {
    let word = "бьо".repeat(21) + "б";
    assert_eq!(spell(&taped(&word)), "Б' J А1 ".repeat(21) + "П");
    let marked = "бьо*".repeat(21) + "б";
    assert_eq!(spell(&taped(&marked)), "Б' J О* ".repeat(21) + "П");
    let first = format!("бьо*{}б", "бьо".repeat(20));
    let expected = format!("Б' J О* {}П", "Б' J А2 ".repeat(20));
    assert_eq!(spell(&taped(&first)), expected);
    let check = |text: &str| agreed::check(&cp1251(text));
    assert_eq!(check(&"бьо".repeat(22)), Err(Refusal::new(10, 64)));
    assert_eq!(check(&"бьо*".repeat(22)), Err(Refusal::new(10, 85)));
}

/// A message of 4,096 bytes and what it comes to: the codes of its tape, its names, and how many of
/// all its cuts are live.
struct Full {
    text: String,
    codes: usize,
    names: usize,
    live: usize,
}

/// So many times the word, with these breaks between.
fn row(word: &str, count: usize, mark: &str) -> String {
    vec![word; count].join(mark)
}

/// Every number is made up of what the words have. A cut is live where б stands before it and Б or
/// Б' after it; at the end of a message б is voiceless.
fn full_messages() -> Vec<Full> {
    // Words of 64 letters: 21 times о after a sign and б, or 61 bare vowels beside one such о.
    let soft = "бьо".repeat(21) + "б";
    let hard = "бъо".repeat(21) + "б";
    let marked = "бьо*".repeat(21) + "н";
    let first_marked = format!("бьо*{}б", "бьо".repeat(20));
    let bare_before = "яеюё".repeat(15) + "ябьо";
    let bare_after = format!("бьо{}", "я".repeat(61));
    vec![
        Full {
            text: row(&soft, 63, " ") + " б",
            codes: 63 * (21 * 3 + 1) + 63 + 1,
            names: 63 * (21 + 1) + 1,
            live: 62,
        },
        Full {
            text: row(&soft, 63, "#") + "#б",
            codes: 63 * (21 * 3 + 1) + 63 + 1,
            names: 63 * (21 + 1) + 1,
            live: 0,
        },
        Full {
            text: row(&hard, 63, " ") + " б",
            codes: 63 * (21 * 2 + 1) + 63 + 1,
            names: 63 * (21 + 1) + 1,
            live: 62,
        },
        Full {
            text: row(&marked, 47, " ") + " " + &"бьо*".repeat(13) + "бь",
            codes: 47 * (21 * 3 + 1) + 47 + 13 * 3 + 1,
            names: 47 * (21 + 1) + 13 + 1,
            live: 0,
        },
        Full {
            text: row(&first_marked, 62, " ") + " бьон",
            codes: 62 * (21 * 3 + 1) + 62 + 4,
            names: 62 * (21 + 1) + 2,
            live: 62,
        },
        Full {
            text: row(&bare_before, 63, " ") + " я",
            codes: 63 * (61 * 2 + 3) + 63 + 2,
            names: 63 * (61 + 1) + 1,
            live: 0,
        },
        // The longest tape with such an о in it: every letter but the one б and ь has two codes.
        Full {
            text: bare_after + " " + &row(&"я".repeat(64), 62, " ") + "#я",
            codes: 3 + 61 * 2 + 62 * 64 * 2 + 63 + 2,
            names: 1 + 61 + 62 * 64 + 1,
            live: 0,
        },
    ]
}

/// A message at one of the fences, and room for an answer at the same one.
struct AtFence {
    msg: Fenced,
    out: Fenced,
    side: Side,
}

impl AtFence {
    fn new(side: Side) -> Self {
        AtFence {
            msg: Fenced::new(LONGEST),
            out: Fenced::new(2 * LONGEST),
            side,
        }
    }

    /// The answer has this length: with just room for it, and with more, it is written and nothing
    /// behind it; with a byte less it is refused, and nothing is written.
    fn answers(&mut self, operation: Operation, msg: &[u8], length: usize, live: usize) {
        let trial = Trial::new(operation, msg);
        let placed = (self.side)(&mut self.msg, msg.len());
        placed.copy_from_slice(msg);
        for room in [length, length - 1, length + 1, 2 * LONGEST] {
            let out = (self.side)(&mut self.out, room);
            out.fill(UNTOUCHED);
            let tried = trial.in_place(placed, out);
            let answer = tried.unwrap_or_else(|difference| panic!("{difference}"));
            let (refusal, written, live) = if room < length {
                (Some(Refusal::new(11, length)), 0, 0)
            } else {
                (None, length, live)
            };
            assert_eq!(answer.refusal(), refusal, "{}", show(msg));
            assert_eq!((answer.length, answer.live), (written, live));
            let (answer, behind) = out.split_at(written);
            assert!(answer.iter().all(|&byte| byte != UNTOUCHED));
            assert!(behind.iter().all(|&byte| byte == UNTOUCHED));
        }
    }
}

#[test]
fn as_many_as_a_message_holds() {
    for full in full_messages() {
        let msg = cp1251(&full.text);
        assert_eq!(msg.len(), LONGEST);
        assert!(full.codes <= 2 * LONGEST);
        assert_eq!(taped(&full.text).len(), full.codes);
        let counts = Counts {
            codes: full.codes,
            names: full.names,
        };
        assert_eq!(agreed::check(&msg), Ok(counts), "{}", full.text);
        let all = breaks(&msg);
        for mut at_fence in SIDES.map(AtFence::new) {
            at_fence.answers(Name, &msg, full.names, 0);
            for edition in EDITIONS {
                at_fence.answers(Transcribe(edition), &msg, full.codes, 0);
                at_fence.answers(Join(edition, &[]), &msg, full.codes, 0);
                at_fence.answers(Join(edition, &all), &msg, full.codes, full.live);
            }
        }
    }
}

#[test]
fn full_messages_cut_at_many_places() {
    for full in full_messages() {
        let msg = cp1251(&full.text);
        let wholes = both_taped(&full.text);
        let live = live_places(&msg);
        assert_eq!(live.len(), full.live, "{}", full.text);
        let all = breaks(&msg);
        let third = all.iter().copied().step_by(3).collect();
        for cuts in [all, third, vec![]] {
            PAIR.holds(&msg, &wholes, &live, &cuts);
        }
    }
}

/// Demand 3 for every list of cuts of a message. No cut changes a glide, nor any code that stands
/// beside no mark, provided no word has two noise letters or more after its last vowel. Gives how
/// many cuts are live.
fn uncut_within_words(text: &str) -> usize {
    let msg = cp1251(text);
    let wholes = both_taped(text);
    let live = live_places(&msg);
    for cuts in every_list(&msg) {
        PAIR.holds(&msg, &wholes, &live, &cuts);
        for (edition, whole) in EDITIONS.into_iter().zip(&wholes) {
            let second = (PAIR.join)(edition, &msg, &cuts).tape;
            let told = format!("{text} cut at {cuts:?} in edition {edition:?}");
            differs_beside_marks(whole, &second, &told);
        }
    }
    live.len()
}

/// Two tapes of equal length differ in no glide, and only right beside a mark.
fn differs_beside_marks(whole: &[u8], second: &[u8], told: &str) {
    let is_mark = |index: usize| matches!(whole.get(index), Some(0 | 63));
    for index in (0..whole.len()).filter(|&index| second[index] != whole[index]) {
        let beside = is_mark(index + 1) || index > 0 && is_mark(index - 1);
        let glide = second[index] == GLIDE || whole[index] == GLIDE;
        assert!(beside && !glide, "{told}");
    }
}

#[test]
fn cuts_beside_words_with_a_glide() {
    let list = "бьо бьо* бьос льон льо*н льо*нд кальо сьо зъо* жьо ножь к и э ё";
    let words: Vec<&str> = list.split(' ').collect();
    let mut live = 0;
    for one in &words {
        for two in &words {
            for three in &words {
                live += uncut_within_words(&format!("{one} {two} {three}"));
                live += uncut_within_words(&format!("{one}#{two} {three}"));
            }
        }
    }
    println!("{live} live cuts");
    assert!(live >= 1_400);
}

#[test]
fn every_short_message_of_signs_and_o() {
    let (mut accepted, mut live) = (0, 0);
    every_string(&cp1251("льъои* "), 7, &mut |msg| {
        if agreed::check(msg).is_ok() {
            accepted += 1;
            live += uncut_within_words(&show(msg));
        }
    });
    println!("{accepted} accepted, {live} live cuts");
    assert!(accepted >= 50_000 && live >= 2_500);
}
