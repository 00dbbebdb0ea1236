//! The phrase book, requests 6 and 7 of document 02: worked examples, each refusal, which of several
//! comes first, and who may hear and add what.

use govorun_tests::agreed::{book_add, book_find};
use govorun_tests::gen::books::NOBODY;
use govorun_tests::unit::{self, Added, Found, DISPATCH, LISTENERS, PUMP, ROAD};
use govorun_tests::{cp1251, Refusal, EDITIONS};

/// Phrase 5, `а`, for all, and phrase 9, `ду*б`, for road and dispatch: the codes 7 and 24 6 39.
const TWO: [u8; 18] = *b"\x52\x9F\x05\x00\x07\x01\x00\x07\x52\x9F\x09\x00\x06\x03\x00\x18\x06\x27";

/// Where the record of phrase 9 starts.
const SECOND: usize = 8;

/// Who is in each set from 0 to 7: pump, road, dispatch.
const SETS: [[bool; 3]; 8] = [
    [false, false, false],
    [true, false, false],
    [false, true, false],
    [true, true, false],
    [false, false, true],
    [true, false, true],
    [false, true, true],
    [true, true, true],
];

/// The book of two phrases with other bytes from this place on.
fn two_with(place: usize, bytes: &[u8]) -> Vec<u8> {
    let mut book = TWO.to_vec();
    book[place..][..bytes.len()].copy_from_slice(bytes);
    book
}

/// A book of three records for all whose tapes are one code long.
fn three(numbers: [u8; 3]) -> Vec<u8> {
    let records = numbers.map(|number| [0x52, 0x9F, number, 0, 7, 1, 0, 7]);
    records.concat()
}

/// A record of phrase 5, `а`, for this set.
fn one(set: u8) -> [u8; 8] {
    [0x52, 0x9F, 5, 0, set, 1, 0, 7]
}

fn refused<T>(number: u8, place: usize) -> Result<T, Refusal> {
    Err(Refusal::new(number, place))
}

/// What a listener gets who may not hear a phrase, or where there is none.
fn unheard() -> Result<Vec<u8>, Refusal> {
    refused(17, 0)
}

/// A lookup in a buffer that is all book.
fn find(listener: u32, book: &[u8], phrase: u16) -> Result<Vec<u8>, Refusal> {
    book_find(listener, book, book.len(), phrase)
}

/// What is found: the tape.
fn found(tape: &[u8]) -> Result<Vec<u8>, Refusal> {
    Ok(tape.to_vec())
}

/// An addition for all to a book with so many bytes of the buffer behind it.
fn add_by(
    listener: u32,
    book: &[u8],
    free: usize,
    phrase: u16,
    text: &str,
) -> Result<usize, Refusal> {
    let mut buffer = [book, &vec![9; free]].concat();
    let added = book_add(listener, &mut buffer, book.len(), phrase, 7, &cp1251(text));
    if added.is_err() {
        assert_eq!(buffer, [book, &vec![9; free]].concat());
    }
    added
}

/// The same by dispatch.
fn add(book: &[u8], free: usize, phrase: u16, text: &str) -> Result<usize, Refusal> {
    add_by(DISPATCH, book, free, phrase, text)
}

/// What a book must be refused with, whatever is looked up by whomever and, if dispatch adds a good
/// message, whatever is added and however short the buffer is.
fn is_refused(book: &[u8], number: u8, place: usize) {
    for phrase in [0, 4, 5, 6, 9, 10, u16::MAX] {
        for listener in [PUMP, ROAD, DISPATCH, 3, DISPATCH + 256] {
            let found = find(listener, book, phrase);
            assert_eq!(found, refused(number, place), "{listener} {phrase}");
        }
        for free in [0, 7, 8, 100] {
            let added = add(book, free, phrase, "а");
            assert_eq!(added, refused(number, place), "{phrase}");
        }
    }
}

#[test]
fn records_are_written_behind_the_book() {
    let mut buffer = vec![9; 34];
    let mut add = |used, phrase, set, text| {
        let added = book_add(DISPATCH, &mut buffer, used, phrase, set, &cp1251(text));
        (added, buffer.clone())
    };
    let (added, _) = add(0, 5, 7, "а");
    assert_eq!(added, Ok(8));
    let (added, buffer) = add(8, 9, 6, "ду*б");
    assert_eq!(added, Ok(18));
    assert_eq!(buffer, [&TWO[..], &[9; 16]].concat());
    let third = b"\x52\x9F\x34\x12\xA1\x07\x00\x18\x06\x27\x00\x29\x01\x2D";
    let (added, buffer) = add(18, 0x1234, 0xA1, "ду*б ра*д");
    assert_eq!(added, Ok(32));
    assert_eq!(buffer, [&TWO[..], third, &[9; 2]].concat());
}

#[test]
fn lookups() {
    for listener in LISTENERS {
        assert_eq!(find(listener, &TWO, 5), found(&[7]));
        for phrase in [0, 1, 4, 6, 7, 8, 10, 0x0509, 0x0905, 0x0706, u16::MAX] {
            assert_eq!(find(listener, &TWO, phrase), unheard(), "{phrase}");
        }
        for phrase in [0, 5, u16::MAX] {
            assert_eq!(find(listener, &[], phrase), unheard());
            assert_eq!(book_find(listener, &TWO, 0, phrase), unheard());
        }
    }
    assert_eq!(find(PUMP, &TWO, 9), unheard());
    assert_eq!(find(ROAD, &TWO, 9), found(&[24, 6, 39]));
    assert_eq!(find(DISPATCH, &TWO, 9), found(&[24, 6, 39]));
}

/// Every number of the answers, where they are refusals too.
#[test]
fn answers() {
    let found = |number, place, found, start, length| Found {
        number,
        place,
        found,
        start,
        length,
    };
    let find = |listener, used, phrase| unit::book_find(listener, &TWO, used, phrase);
    assert_eq!(find(PUMP, 18, 5), found(0, 0, 1, 7, 1));
    assert_eq!(find(DISPATCH, 18, 9), found(0, 0, 1, 15, 3));
    assert_eq!(find(DISPATCH, 18, 8), found(17, 0, 0, 0, 0));
    assert_eq!(find(PUMP, 18, 9), found(17, 0, 0, 0, 0));
    assert_eq!(find(3, 18, 5), found(17, 0, 0, 0, 0));
    assert_eq!(find(PUMP, 17, 5), found(15, 8, 0, 0, 0));
    assert_eq!(find(PUMP, 17, 9), found(15, 8, 0, 0, 0));
    let equal = two_with(10, &[5]);
    let sixteen = found(16, 8, 0, 0, 0);
    assert_eq!(unit::book_find(DISPATCH, &equal, 18, 5), sixteen);
    let added = |number, place, used| Added {
        number,
        place,
        used,
    };
    let add = |listener, mut book: Vec<u8>, used, phrase, text| {
        book.extend([9; 11]);
        let [one, two] = EDITIONS.map(|edition| {
            let book = &mut book.clone();
            unit::book_add(listener, edition, book, used, phrase, 1, &cp1251(text))
        });
        assert_eq!(one, two);
        one
    };
    let two = || TWO.to_vec();
    assert_eq!(add(DISPATCH, two(), 18, 10, "а"), added(0, 0, 26));
    assert_eq!(add(DISPATCH, two(), 18, 10, "а#"), added(4, 1, 0));
    assert_eq!(add(DISPATCH, two(), 18, 9, "а"), added(16, 18, 0));
    assert_eq!(add(DISPATCH, two(), 17, 10, "а"), added(15, 8, 0));
    assert_eq!(add(DISPATCH, equal, 18, 10, "а"), added(16, 8, 0));
    assert_eq!(add(DISPATCH, two(), 18, 10, "а а а"), added(11, 30, 0));
    assert_eq!(add(PUMP, two(), 18, 10, "а"), added(17, 0, 0));
    assert_eq!(add(3, two(), 17, 9, "а#"), added(17, 0, 0));
}

/// Of numbers and lengths, where they are written and where they are read.
#[test]
fn low_bytes_stand_first() {
    let words = vec!["а"; 150].join(" ");
    let mut buffer = vec![9; 400];
    let added = book_add(DISPATCH, &mut buffer, 0, 0x1234, 0x56, &cp1251(&words));
    assert_eq!(added, Ok(306));
    assert_eq!(buffer[..9], *b"\x52\x9F\x34\x12\x56\x2B\x01\x07\x00");
    let heard = book_find(ROAD, &buffer, 306, 0x1234);
    assert_eq!(heard, found(&buffer[7..306]));
    assert_eq!(book_find(ROAD, &buffer, 306, 0x3412), unheard());
    let rising = b"\x52\x9F\xFF\x00\x07\x00\x00\x52\x9F\x00\x01\x07\x00\x00";
    assert_eq!(find(ROAD, rising, 0x0100), found(&[]));
    let falling = b"\x52\x9F\x00\x01\x07\x00\x00\x52\x9F\xFF\x00\x07\x00\x00";
    is_refused(falling, 16, 7);
}

/// A head of seven bytes that all differ: what is read at another place is found nowhere.
#[test]
fn number_set_and_length_stand_apart() {
    let book = b"\x52\x9F\x02\x01\x04\x03\x00\x07\x08\x09";
    for phrase in 0..=u16::MAX {
        let heard = match phrase {
            0x0102 => found(&[7, 8, 9]),
            _ => unheard(),
        };
        assert_eq!(find(DISPATCH, book, phrase), heard, "{phrase}");
        for crew in [PUMP, ROAD] {
            assert_eq!(find(crew, book, phrase), unheard(), "{phrase}");
        }
    }
    // Whatever the set is, it is taken for no part of a number or a length.
    for set in 0..=u8::MAX {
        let book = two_with(12, &[set]);
        assert_eq!(find(PUMP, &book, 5), found(&[7]), "{set}");
        assert_eq!(add(&book, 8, 10, "а"), Ok(26), "{set}");
    }
}

#[test]
fn a_record_without_its_mark() {
    for (place, start) in [(0, 0), (1, 0), (SECOND, SECOND), (SECOND + 1, SECOND)] {
        for other in (0..=255).filter(|&byte| byte != TWO[place]) {
            is_refused(&two_with(place, &[other]), 15, start);
        }
    }
    is_refused(&two_with(0, b"\x9F\x52"), 15, 0);
    // The mark of a later request.
    is_refused(&two_with(SECOND, b"\x52\xA0"), 15, SECOND);
}

/// They have another mark and no set.
#[test]
fn records_of_the_request_before() {
    let old = b"\x52\x9E\x05\x00\x01\x00\x07\x52\x9E\x09\x00\x03\x00\x18\x06\x27";
    is_refused(old, 15, 0);
    is_refused(&old[..7], 15, 0);
    is_refused(
        &[&TWO[..], b"\x52\x9E\x0A\x00\x01\x00\x07"].concat(),
        15,
        18,
    );
    is_refused(
        &[&TWO[..], b"\x52\x9E\x0A\x00\x07\x01\x00\x07"].concat(),
        15,
        18,
    );
    is_refused(
        &[&TWO[..], b"\x52\x9E\x0A\x00\x00\x00\x00"].concat(),
        15,
        18,
    );
    // With the new mark and still no set, the length is read from its second byte on.
    is_refused(b"\x52\x9F\x05\x00\x01\x00\x07", 15, 0);
    is_refused(b"\x52\x9F\x05\x00\x00\x00", 15, 0);
}

#[test]
fn a_record_that_is_cut_short() {
    for used in (1..TWO.len()).filter(|&used| used != SECOND) {
        let start = if used < SECOND { 0 } else { SECOND };
        is_refused(&TWO[..used], 15, start);
        // More bytes of the buffer behind the book don't help.
        for phrase in [5, 9] {
            let found = book_find(DISPATCH, &TWO, used, phrase);
            assert_eq!(found, refused(15, start));
        }
    }
    for length in [4, 5, 255, 256, 259, 65_535_u16] {
        is_refused(&two_with(13, &length.to_le_bytes()), 15, SECOND);
    }
    // One byte more in the first record, and one less, leave no mark where the next one starts.
    is_refused(&two_with(5, &[2]), 15, SECOND + 1);
    is_refused(&two_with(5, &[0]), 15, SECOND - 1);
}

#[test]
fn numbers_that_do_not_rise() {
    for number in 0..=5 {
        is_refused(&two_with(10, &[number]), 16, SECOND);
    }
    let six = two_with(10, &[6]);
    assert_eq!(find(DISPATCH, &six, 6), found(&[24, 6, 39]));
    is_refused(&three([0, 0, 1]), 16, 8);
    is_refused(&three([0, 1, 1]), 16, 16);
    is_refused(&three([5, 9, 6]), 16, 16);
    let last = b"\x52\x9F\xFF\xFF\x07\x00\x00";
    is_refused(&[*last, *last].concat(), 16, 7);
}

/// A number is given once, whoever may hear it.
#[test]
fn one_number_for_two_sets() {
    for (first, second) in [(1, 2), (2, 4), (4, 1), (0, 7), (7, 0), (0, 0), (8, 16)] {
        is_refused(&[one(first), one(second)].concat(), 16, 8);
    }
    // Nor may dispatch add under the number of a phrase that is not for dispatch.
    for set in [0, 1, 2, 3, 0xFB] {
        for phrase in 0..=5 {
            assert_eq!(add(&one(set), 100, phrase, "а"), refused(16, 8));
        }
        assert_eq!(add(&one(set), 100, 6, "а"), Ok(16));
    }
}

#[test]
fn at_one_place_fifteen_comes_first() {
    for number in [0, 4, 5] {
        let book = two_with(10, &[number]);
        for used in SECOND + 1..book.len() {
            is_refused(&book[..used], 15, SECOND);
        }
        let longer = two_with(10, &[number, 0, 6, 4]);
        is_refused(&longer, 15, SECOND);
        for mark in [b"\x52\x9E", b"\x53\x9F"] {
            let marked = two_with(SECOND, &[mark[0], mark[1], number]);
            is_refused(&marked, 15, SECOND);
        }
    }
}

#[test]
fn the_smallest_place_counts() {
    let with = |numbers, place: usize, byte| {
        let mut book = three(numbers);
        book[place] = byte;
        book
    };
    is_refused(&with([5, 5, 9], 16, 0), 16, 8);
    is_refused(&with([5, 9, 6], 8, 0), 15, 8);
    is_refused(&with([5, 9, 6], 5, 20), 15, 0);
    is_refused(&three([5, 4, 3]), 16, 8);
    is_refused(&three([5, 4, 5]), 16, 8);
    is_refused(&three([5, 3, 4])[..23], 16, 8);
    is_refused(&three([3, 4, 4])[..23], 15, 16);
}

/// Also behind the record that is wanted.
#[test]
fn the_whole_book_is_checked() {
    let sound = three([5, 9, 10]);
    for listener in LISTENERS {
        assert_eq!(find(listener, &sound, 5), found(&[7]));
        assert_eq!(find(listener, &sound[..23], 5), refused(15, 16));
        assert_eq!(find(listener, &sound[..17], 9), refused(15, 16));
        assert_eq!(find(listener, &three([5, 9, 9]), 5), refused(16, 16));
        assert_eq!(find(listener, &three([5, 9, 5]), 9), refused(16, 16));
        let longer = [&sound[..], &[0x52]].concat();
        assert_eq!(find(listener, &longer, 5), refused(15, 24));
    }
}

/// Whether bits stand there that mean nobody or not.
#[test]
fn every_listener_with_every_set() {
    for high in (0..=0xF8).step_by(8) {
        for (low, hears) in (0..).zip(SETS) {
            let book = one(high | low);
            for (listener, hears) in LISTENERS.into_iter().zip(hears) {
                let expected = if hears { found(&[7]) } else { unheard() };
                let heard = find(listener, &book, 5);
                assert_eq!(heard, expected, "{listener} {low} {high}");
            }
        }
    }
}

#[test]
fn sets_are_kept_as_given() {
    for set in 0..=u8::MAX {
        let mut buffer = [&TWO[..], &[9; 12]].concat();
        let added = book_add(DISPATCH, &mut buffer, 18, 0x0A0B, set, &cp1251("ду*б"));
        assert_eq!(added, Ok(28));
        let record = [0x52, 0x9F, 0x0B, 0x0A, set, 3, 0, 24, 6, 39];
        assert_eq!(buffer, [&TWO[..], &record, &[9; 2]].concat());
        for (listener, hears) in LISTENERS.into_iter().zip(SETS[usize::from(set % 8)]) {
            let heard = book_find(listener, &buffer, 28, 0x0A0B);
            let expected = if hears {
                found(&[24, 6, 39])
            } else {
                unheard()
            };
            assert_eq!(heard, expected, "{listener} {set}");
        }
    }
}

/// Whether there is such a phrase can't be told: not by any part of the answer.
#[test]
fn what_may_not_be_heard_is_as_if_it_were_not_there() {
    let seventeen = Found {
        number: 17,
        place: 0,
        found: 0,
        start: 0,
        length: 0,
    };
    for (listener, others) in [(PUMP, 0xFE), (ROAD, 0xFD), (DISPATCH, 0xFB)] {
        let hidden = [one(others), [0x52, 0x9F, 8, 0, 0xFF, 1, 0, 7]].concat();
        for (book, used) in [(&hidden[..], 16), (&hidden[8..], 8), (&[], 0)] {
            for phrase in [0, 4, 5, 6, 7, 9, u16::MAX] {
                let answer = unit::book_find(listener, book, used, phrase);
                assert_eq!(answer, seventeen, "{listener} {phrase}");
            }
        }
        assert_eq!(find(listener, &hidden, 8), found(&[7]));
    }
}

/// A phrase that is for dispatch, one that is not and none at all, in books that are not sound.
#[test]
fn seventeen_comes_last_in_a_lookup() {
    for set in [0, 3, 4, 7, 0xF8] {
        let first = one(set);
        let second = [0x52, 0x9F, 9, 0, 7, 1, 0, 7];
        assert_eq!(find(DISPATCH, &[first, second].concat(), 6), unheard());
        is_refused(&[&first[..], &second[..7]].concat(), 15, 8);
        is_refused(&[first, first].concat(), 16, 8);
        is_refused(&[&second[..], &first].concat(), 16, 8);
        is_refused(&[&first[..], &[0]].concat(), 15, 8);
        is_refused(&first[..7], 15, 0);
    }
}

/// All numbers of two bytes but the three, and each of the three with one more bit.
#[test]
fn every_number_that_may_be_taken_for_a_listener() {
    let with_a_bit = |listener| (2..32).map(move |bit| listener | 1 << bit);
    let longer = LISTENERS.into_iter().flat_map(with_a_bit);
    for nobody in (3..=0xFFFF).chain(longer) {
        assert_eq!(find(nobody, &one(0xFF), 5), unheard(), "{nobody}");
        let added = add_by(nobody, &TWO, 100, 10, "а");
        assert_eq!(added, refused(17, 0), "{nobody}");
    }
}

/// Not even of a phrase whose set has all bits; 15 and 16 are told to them, too.
#[test]
fn numbers_that_mean_no_listener_hear_nothing() {
    for nobody in NOBODY {
        for set in 0..=u8::MAX {
            for phrase in [0, 5, u16::MAX] {
                assert_eq!(find(nobody, &one(set), phrase), unheard(), "{nobody}");
            }
        }
        assert_eq!(find(nobody, &[], 5), unheard());
        assert_eq!(find(nobody, &TWO[..17], 5), refused(15, 8));
        assert_eq!(find(nobody, &three([5, 5, 9]), 5), refused(16, 8));
    }
}

/// A message for each of the refusals 1 to 10.
fn bad_messages() -> [(String, Refusal); 10] {
    [
        (String::new(), Refusal::new(1, 0)),
        ("а".repeat(4097), Refusal::new(2, 0)),
        ("а7".to_string(), Refusal::new(3, 1)),
        ("а#".to_string(), Refusal::new(4, 1)),
        ("б*".to_string(), Refusal::new(5, 1)),
        ("ьа".to_string(), Refusal::new(6, 0)),
        ("бьъ".to_string(), Refusal::new(7, 2)),
        ("бък".to_string(), Refusal::new(8, 2)),
        ("а*ья".to_string(), Refusal::new(9, 3)),
        ("а".repeat(65), Refusal::new(10, 64)),
    ]
}

/// Books that are sound, and others.
fn some_books() -> [Vec<u8>; 6] {
    [
        Vec::new(),
        TWO.to_vec(),
        TWO[..17].to_vec(),
        two_with(0, &[0]),
        two_with(10, &[5]),
        three([5, 9, 9]),
    ]
}

#[test]
fn what_is_wrong_with_the_message_is_said_first() {
    for (text, refusal) in bad_messages() {
        for book in some_books() {
            for (free, phrase) in [(0, 10), (100, 10), (0, 5), (100, 9), (6, 0)] {
                let added = add(&book, free, phrase, &text);
                assert_eq!(added, Err(refusal), "{text}");
            }
        }
    }
}

/// Others are refused before the message, the book, the number and the room are looked at.
#[test]
fn only_dispatch_adds() {
    let bad = bad_messages().map(|(text, _)| text);
    for listener in [PUMP, ROAD].into_iter().chain(NOBODY) {
        for text in bad.iter().map(String::as_str).chain(["а", "ду*б"]) {
            for book in some_books() {
                for (free, phrase) in [(0, 10), (100, 10), (0, 5), (100, 9), (6, 0)] {
                    let added = add_by(listener, &book, free, phrase, text);
                    assert_eq!(added, refused(17, 0), "{listener} {text}");
                }
            }
        }
        assert_eq!(add_by(listener, &[], 0, 0, ""), refused(17, 0));
    }
    assert_eq!(add_by(DISPATCH, &TWO, 100, 10, "ду*б"), Ok(28));
}

/// Whether the set has them in it or not.
#[test]
fn the_set_does_not_say_who_adds() {
    let msg = cp1251("а");
    for set in 0..=u8::MAX {
        let mut buffer = [&TWO[..], &[9; 8]].concat();
        for listener in [PUMP, ROAD, 3, 4, 7, DISPATCH + 256, DISPATCH + (1 << 16)] {
            let added = book_add(listener, &mut buffer, 18, 10, set, &msg);
            assert_eq!(added, refused(17, 0), "{listener} {set}");
            assert_eq!(buffer, [&TWO[..], &[9; 8]].concat());
        }
        let added = book_add(DISPATCH, &mut buffer, 18, 10, set, &msg);
        assert_eq!(added, Ok(26), "{set}");
    }
}

/// Its place is the end of the book, not a record's start, and it comes before 11.
#[test]
fn an_addition_whose_number_does_not_rise() {
    for phrase in 0..=9 {
        for free in [0, 7, 8, 100] {
            assert_eq!(add(&TWO, free, phrase, "а"), refused(16, 18), "{phrase}");
        }
    }
    assert_eq!(add(&TWO, 8, 10, "а"), Ok(26));
    assert_eq!(add(&TWO, 8, u16::MAX, "а"), Ok(26));
}

#[test]
fn a_buffer_that_is_too_short() {
    for free in 0..10 {
        assert_eq!(add(&TWO, free, 10, "ду*б"), refused(11, 28), "{free}");
        assert_eq!(add(&[], free, 10, "ду*б"), refused(11, 10), "{free}");
    }
    for free in [10, 11, 100] {
        assert_eq!(add(&TWO, free, 10, "ду*б"), Ok(28), "{free}");
        assert_eq!(add(&[], free, 10, "ду*б"), Ok(10), "{free}");
    }
    // J and a vowel for each letter: the longest tape there is.
    let longest = vec!["я".repeat(64); 63].join(" ");
    assert_eq!(add(&TWO, 0, 10, &longest), refused(11, 18 + 7 + 8126));
    assert_eq!(add(&TWO, 7 + 8126, 10, &longest), Ok(18 + 7 + 8126));
}

#[test]
fn the_first_number_and_the_last() {
    let mut buffer = vec![9; 40];
    let msg = cp1251("а");
    let mut add = |used, phrase| book_add(DISPATCH, &mut buffer, used, phrase, 5, &msg);
    assert_eq!(add(0, 0), Ok(8));
    assert_eq!(add(8, 0), refused(16, 8));
    assert_eq!(add(8, 65_534), Ok(16));
    assert_eq!(add(16, 65_534), refused(16, 16));
    assert_eq!(add(16, 65_535), Ok(24));
    for phrase in 0..=u16::MAX {
        assert_eq!(add(24, phrase), refused(16, 24));
    }
    for phrase in 0..=u16::MAX {
        let known = [0, 65_534, 65_535].contains(&phrase);
        let heard = if known { found(&[7]) } else { unheard() };
        assert_eq!(book_find(DISPATCH, &buffer, 24, phrase), heard, "{phrase}");
        assert_eq!(book_find(PUMP, &buffer, 24, phrase), heard, "{phrase}");
        assert_eq!(book_find(ROAD, &buffer, 24, phrase), unheard(), "{phrase}");
    }
}

/// They are read as the buffer's length.
#[test]
fn used_counts_above_the_buffer() {
    let far = [19, 1 << 32, (1 << 32) + 8, (1 << 63) + 8, usize::MAX];
    for used in far.into_iter().chain([usize::MAX - 9]) {
        let mut buffer = TWO;
        assert_eq!(book_find(ROAD, &buffer, used, 9), found(&[24, 6, 39]));
        assert_eq!(book_find(ROAD, &buffer, used, 6), unheard());
        assert_eq!(book_find(PUMP, &buffer, used, 9), unheard());
        let add = |buffer: &mut [u8], phrase| {
            let msg = cp1251("а");
            book_add(DISPATCH, buffer, used, phrase, 7, &msg)
        };
        assert_eq!(add(&mut buffer, 9), refused(16, 18));
        assert_eq!(add(&mut buffer, 10), refused(11, 26));
        // Now what stands behind the records is of the book, too.
        let mut longer = [&TWO[..], &[9]].concat();
        assert_eq!(book_find(PUMP, &longer, used, 9), refused(15, 18));
        assert_eq!(add(&mut longer, 10), refused(15, 18));
    }
}

#[test]
fn a_buffer_without_bytes() {
    for used in [0, 1, 7, 8, usize::MAX] {
        for listener in LISTENERS {
            assert_eq!(book_find(listener, &[], used, 0), unheard());
        }
        let add = |listener, msg: &[u8]| book_add(listener, &mut [], used, 0, 7, msg);
        assert_eq!(add(DISPATCH, &cp1251("а")), refused(11, 8));
        assert_eq!(add(DISPATCH, &[]), refused(1, 0));
        assert_eq!(add(ROAD, &[]), refused(17, 0));
    }
}

#[test]
fn tapes_that_no_unit_wrote() {
    // No bytes, at the buffer's end, too.
    let empty = b"\x52\x9F\x05\x00\x07\x00\x00\x52\x9F\x06\x00\x02\x00\x00";
    assert_eq!(find(ROAD, empty, 5), found(&[]));
    assert_eq!(find(ROAD, empty, 6), found(&[]));
    assert_eq!(find(PUMP, empty, 6), unheard());
    assert_eq!(add(empty, 8, 7, "а"), Ok(22));
    is_refused(&empty[..13], 15, 7);
    // As many as two bytes can count.
    let longest = [&b"\x52\x9F\x05\x00\x01\xFF\xFF"[..], &[0x52; 65_535]].concat();
    assert_eq!(find(PUMP, &longest, 5), found(&longest[7..]));
    assert_eq!(find(DISPATCH, &longest, 5), unheard());
    assert_eq!(add(&longest, 7, 6, "а"), refused(11, 65_550));
    assert_eq!(add(&longest, 8, 6, "а"), Ok(65_550));
    is_refused(&longest[..65_541], 15, 0);
    // Records, which are none of the book's.
    let inner = [&b"\x52\x9F\x05\x00\x01\x12\x00"[..], &TWO].concat();
    assert_eq!(find(PUMP, &inner, 5), found(&TWO));
    assert_eq!(find(DISPATCH, &inner, 5), unheard());
    assert_eq!(find(DISPATCH, &inner, 9), unheard());
    assert_eq!(add(&inner, 8, 6, "а"), Ok(33));
    let short = [&b"\x52\x9F\x05\x00\x07\x08\x00"[..], &TWO[..17]].concat();
    is_refused(&short, 15, 15);
}
