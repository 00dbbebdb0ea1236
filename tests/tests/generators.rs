//! The generators do what they promise: their accepted messages are accepted, their damaged ones
//! refused as made, their lists of cuts good or bad as asked, their texts in UTF-8 read or refused,
//! their books sound or refused as damaged. This tries the check, the reader and the book from both
//! sides.

use std::collections::BTreeSet;

use govorun_tests::agreed::{book_add, book_find, check, join, read_utf8, tape};
use govorun_tests::gen::books::{self, any_listener, laid, phrases, DAMAGES, NOBODY};
use govorun_tests::gen::cuts::BAD_CUTS;
use govorun_tests::gen::damaged::{Spot, SPOTS};
use govorun_tests::gen::lexicon;
use govorun_tests::gen::utf8::{taken, untaken};
use govorun_tests::gen::{
    bad_cuts, damaged, every_list, good_cuts, message, message_of_any_length, noise, Rng,
};
use govorun_tests::message::words;
use govorun_tests::syllables::syllables;
use govorun_tests::unit::{DISPATCH, LISTENERS};
use govorun_tests::{cp1251, hex, show, Refusal};

#[test]
fn listed_words_are_accepted() {
    let words = lexicon::words();
    assert!(words.len() >= 150);
    for word in words {
        assert!(check(&cp1251(word)).is_ok(), "{word}");
    }
}

#[test]
fn accepted_messages_of_every_length() {
    let mut rng = Rng::for_test(1);
    for length in (1..=600)
        .chain((600..=4096).step_by(23))
        .chain([4095, 4096])
    {
        let msg = message(&mut rng, length);
        assert_eq!(msg.len(), length);
        assert!(check(&msg).is_ok(), "{}", show(&msg));
    }
}

#[test]
fn accepted_messages_meet_every_sound() {
    let mut rng = Rng::for_test(2);
    let mut seen = [false; 256];
    for _ in 0..3000 {
        let msg = message_of_any_length(&mut rng);
        let tape = tape(&msg, usize::MAX).unwrap_or_else(|_| panic!("{}", show(&msg)));
        tape.iter().for_each(|&code| seen[usize::from(code)] = true);
    }
    let unseen: Vec<usize> = (0..256).filter(|&code| !seen[code]).collect();
    let never: Vec<usize> = [14, 15].into_iter().chain(57..63).chain(64..256).collect();
    assert_eq!(unseen, never);
}

#[test]
fn accepted_messages_meet_o_after_either_sign_at_every_level() {
    let mut rng = Rng::for_test(14);
    let (mut after_soft, mut after_hard) = ([0; 3], [0; 3]);
    for _ in 0..3000 {
        for word in words(&message_of_any_length(&mut rng)) {
            for syllable in syllables(&word) {
                let (vowel, level) = (syllable.vowel, syllable.level as usize);
                match (word.previous(vowel), word.letters[vowel].letter) {
                    (Some('ь'), 'о') => after_soft[level] += 1,
                    (Some('ъ'), 'о') => after_hard[level] += 1,
                    _ => {}
                }
            }
        }
    }
    println!("after ь {after_soft:?}, after ъ {after_hard:?}");
    let met = after_soft.iter().chain(&after_hard);
    assert!(met.copied().min() >= Some(300));
}

#[test]
fn damaged_messages_are_refused_as_made() {
    let mut rng = Rng::for_test(4);
    for number in 1..=10 {
        for spot in SPOTS {
            for _ in 0..300 {
                let (msg, refusal) = damaged(&mut rng, number, spot);
                assert_eq!(check(&msg), Err(refusal), "{}", hex(&msg));
            }
        }
    }
}

#[test]
fn bytes_after_the_refused_place_do_not_matter() {
    let mut rng = Rng::for_test(10);
    for number in 3..=10 {
        for spot in SPOTS {
            // A break at the end is the only refusal that depends on what comes after.
            if (number, spot) == (4, Spot::Last) {
                continue;
            }
            for _ in 0..100 {
                let (mut msg, refusal) = damaged(&mut rng, number, spot);
                msg.truncate(refusal.place + 1);
                let length = rng.below(20);
                msg.extend(noise::bytes(&mut rng, length));
                assert_eq!(check(&msg), Err(refusal), "{}", hex(&msg));
            }
        }
    }
}

#[test]
fn bad_cuts_are_refused_at_their_index() {
    let mut rng = Rng::for_test(5);
    for _ in 0..1500 {
        let msg = message_of_any_length(&mut rng);
        for kind in BAD_CUTS {
            if let Some((cuts, place)) = bad_cuts(&mut rng, &msg, kind) {
                let refusal = Refusal { number: 12, place };
                let told = format!("{kind:?} {cuts:?} {}", show(&msg));
                assert_eq!(join(&msg, &cuts, 0), Err(refusal), "{told}");
            }
        }
    }
}

#[test]
fn good_cuts_are_taken() {
    let mut rng = Rng::for_test(6);
    for _ in 0..1000 {
        let msg = message_of_any_length(&mut rng);
        let cuts = good_cuts(&mut rng, &msg);
        assert!(
            join(&msg, &cuts, usize::MAX).is_ok(),
            "{cuts:?} {}",
            show(&msg)
        );
    }
    let lists = every_list(b"\xE0 \xE0#\xE0");
    assert_eq!(lists, [vec![], vec![1], vec![3], vec![1, 3]]);
}

#[test]
fn random_bytes_get_an_answer() {
    let mut rng = Rng::for_test(7);
    for _ in 0..20_000 {
        let length = rng.below(40);
        let msg = noise::bytes(&mut rng, length);
        if let Err(refusal) = check(&msg) {
            assert!((1..=10).contains(&refusal.number), "{}", hex(&msg));
            assert!(refusal.place < msg.len().max(1), "{}", hex(&msg));
        }
    }
}

#[test]
fn texts_of_what_is_taken_are_read() {
    let mut rng = Rng::for_test(13);
    for characters in 0..600 {
        let text = taken(&mut rng, characters);
        let read = read_utf8(text.as_bytes(), characters);
        assert_eq!(read, Ok(cp1251(&text)), "{text}");
    }
}

#[test]
fn wrong_sequences_are_refused_at_their_first_byte() {
    let sequences = untaken();
    let malformed = |sequence: &&Vec<u8>| std::str::from_utf8(sequence).is_err();
    let count = sequences.iter().filter(malformed).count();
    assert!(count >= 60 && sequences.len() - count >= 60);
    for sequence in sequences {
        let refused = read_utf8(&sequence, usize::MAX);
        assert_eq!(refused, Err(Refusal::new(13, 0)), "{}", hex(&sequence));
    }
}

#[test]
fn books_of_phrases_are_sound() {
    let mut rng = Rng::for_test(15);
    let mut sets = [0; 256];
    for _ in 0..3000 {
        let most = rng.between(1, 9);
        let phrases = phrases(&mut rng, most);
        let book = laid(&phrases);
        for phrase in phrases {
            let listener = rng.pick(&LISTENERS);
            let found = book_find(listener, &book, book.len(), phrase.number);
            let is_for = phrase.set >> listener & 1 == 1;
            let expected = is_for.then_some(phrase.tape);
            assert_eq!(found, expected.ok_or(Refusal::new(17, 0)));
            sets[usize::from(phrase.set)] += 1;
        }
    }
    assert!(sets[..8].iter().min() >= Some(&500));
    assert!(sets[8..].iter().min() >= Some(&5));
}

#[test]
fn damaged_books_are_refused_as_made() {
    let mut rng = Rng::for_test(16);
    let msg = cp1251("а");
    for damage in DAMAGES {
        let mut count = 0;
        for _ in 0..3000 {
            let most = rng.between(1, 6);
            let phrases = phrases(&mut rng, most);
            let Some((mut book, refusal)) = books::damaged(&mut rng, &phrases, damage) else {
                continue;
            };
            let used = book.len();
            for number in phrases.iter().map(|phrase| phrase.number) {
                let found = book_find(any_listener(&mut rng), &book, used, number);
                assert_eq!(found, Err(refusal), "{damage:?}");
            }
            let added = book_add(DISPATCH, &mut book, used, u16::MAX, 7, &msg);
            assert_eq!(added, Err(refusal));
            count += 1;
        }
        assert!(count >= 1000, "{damage:?} {count}");
    }
}

#[test]
fn listeners_of_all_kinds() {
    let mut rng = Rng::for_test(17);
    let met: BTreeSet<u32> = (0..3000).map(|_| any_listener(&mut rng)).collect();
    let all: BTreeSet<u32> = LISTENERS.into_iter().chain(NOBODY).collect();
    assert_eq!(met, all);
    assert_eq!(all.len(), LISTENERS.len() + NOBODY.len());
}
