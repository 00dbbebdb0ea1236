//! Books of every kind through the library beside the second implementation: every change of one
//! byte, every used count, lists of additions, damaged books, and books as long as they can be.

use govorun_tests::book::{record, HEAD, MARK};
use govorun_tests::book_trial::Lent;
use govorun_tests::fence::{Fenced, SIDES};
use govorun_tests::gen::books::{
    self, any_listener, any_set, laid, muddle, numbers, phrases, Phrase, DAMAGES,
};
use govorun_tests::gen::damaged::SPOTS;
use govorun_tests::gen::noise::{bytes, every_string, string};
use govorun_tests::gen::{damaged, message, message_of_any_length, Rng};
use govorun_tests::unit::{self, Added, Found, DISPATCH, LISTENERS, PUMP, ROAD};
use govorun_tests::{cp1251, tape, Edition, EDITIONS};

fn find(rng: &mut Rng, lent: Lent, listener: u32, phrase: u16) -> Found {
    let tried = lent.lookup(listener, phrase).among_others(rng);
    tried.unwrap_or_else(|difference| panic!("{difference}"))
}

/// What an addition for any set has come to: its answer, the set, and the buffer afterwards.
struct Tried {
    added: Added,
    set: u8,
    buffer: Vec<u8>,
}

/// An addition for any set, tried in both editions; the answers are the same. Gives what it has
/// come to in each.
fn add_in_both(rng: &mut Rng, lent: Lent, listener: u32, phrase: u16, msg: &[u8]) -> [Tried; 2] {
    let set = any_set(rng);
    let tried = EDITIONS.map(|edition| {
        let addition = lent.addition(listener, edition, phrase, set, msg);
        let tried = addition.among_others(rng);
        let (added, buffer) = tried.unwrap_or_else(|difference| panic!("{difference}"));
        Tried { added, set, buffer }
    });
    assert_eq!(tried[0].added, tried[1].added);
    tried
}

/// The same, but gives what it has come to in any of the two.
fn add(rng: &mut Rng, lent: Lent, listener: u32, phrase: u16, msg: &[u8]) -> Tried {
    let [one, two] = add_in_both(rng, lent, listener, phrase, msg);
    match rng.pick(&EDITIONS) {
        Edition::One => one,
        Edition::Two => two,
    }
}

/// The tape of an accepted message.
fn tape_of(edition: Edition, msg: &[u8]) -> Vec<u8> {
    tape(edition, msg, usize::MAX).expect("an accepted message")
}

/// How many bytes a record of a message has; of one that is refused, those of its head.
fn record_bytes(msg: &[u8]) -> usize {
    HEAD + tape(Edition::One, msg, usize::MAX).map_or(0, |tape| tape.len())
}

/// Lookups of what may be in the book and of what stands beside it; and additions, after which the
/// new phrase is looked up.
fn agrees(rng: &mut Rng, lent: Lent) {
    let numbers = numbers(rng, lent.buffer, 4);
    for &phrase in &numbers {
        for listener in [any_listener(rng), any_listener(rng)] {
            find(rng, lent, listener, phrase);
        }
    }
    let phrase = rng.pick(&numbers);
    for (listener, phrase, text) in [
        (DISPATCH, u16::MAX, "а"),
        (DISPATCH, phrase, "са*д к до*му"),
        (DISPATCH, phrase, "а#"),
        (any_listener(rng), phrase, "а"),
    ] {
        let tried = add(rng, lent, listener, phrase, &cp1251(text));
        if tried.added.number == 0 {
            let after = Lent::new(&tried.buffer, tried.added.used);
            let listener = rng.pick(&LISTENERS);
            let is_for = u32::from(tried.set >> listener & 1);
            assert_eq!(find(rng, after, listener, phrase).found, is_for);
        }
    }
}

/// A message for an addition: mostly a good one.
fn any_message(rng: &mut Rng) -> Vec<u8> {
    match rng.below(8) {
        0 => {
            let number = rng.between(1, 10) as u8;
            damaged(rng, number, SPOTS[0]).0
        }
        1 => message_of_any_length(rng),
        _ => {
            let length = rng.between(1, 25);
            message(rng, length)
        }
    }
}

/// A listener for an addition: mostly dispatch.
fn any_adder(rng: &mut Rng) -> u32 {
    match rng.below(4) {
        0 => any_listener(rng),
        _ => DISPATCH,
    }
}

/// A number for an addition: mostly above the last one.
fn any_number(rng: &mut Rng, last: Option<u16>) -> u16 {
    let last = last.unwrap_or(0);
    match rng.below(12) {
        0 => last,
        1 => last.saturating_sub(1),
        2 => rng.pick(&[0, 1, 65_534, 65_535]),
        3 => rng.bits() as u16,
        4 => last.saturating_add(256),
        _ => last.saturating_add(rng.between(1, 5) as u16),
    }
}

/// Records of one code, of none and of three, whose numbers differ in the low byte or in the high,
/// each for other listeners.
fn small_book() -> Vec<u8> {
    laid(&[
        Phrase::new(3, 0b101, &[7]),
        Phrase::new(4, 0, &[]),
        Phrase::new(0x0103, 0xFE, &[24, 6, 39]),
    ])
}

#[test]
fn every_other_byte_at_each_place() {
    let mut rng = Rng::for_test(130);
    let book = small_book();
    for place in 0..book.len() {
        for other in (0..=255).filter(|&byte| byte != book[place]) {
            let mut buffer = [&book[..], &[0xAA; 25]].concat();
            buffer[place] = other;
            let used = book.len();
            agrees(&mut rng, Lent::new(&buffer, used));
        }
    }
}

/// Behind the book stands what may be taken for more of it.
#[test]
fn every_used_count_in_every_buffer() {
    let mut rng = Rng::for_test(131);
    let behind = [
        record(0x0104, 1, &[1, 2]),
        record(0x0104, 7, &[]),
        vec![0x52],
    ];
    let whole = [small_book(), behind.concat()].concat();
    let far = [1 << 32, (1 << 32) + 7, 1 << 63, usize::MAX - 5, usize::MAX];
    for size in 0..=whole.len() {
        for used in (0..=size + 8).chain(far) {
            let buffer = &whole[..size];
            agrees(&mut rng, Lent::new(buffer, used));
        }
    }
}

/// Whole records, some of another kind, and parts of some, in every order.
#[test]
fn every_row_of_a_few_pieces() {
    let mut rng = Rng::for_test(132);
    let pieces = [
        record(1, 7, &[]),
        record(2, 1, &[7]),
        record(2, 0xF8, &[]),
        record(0x0100, 6, &[1, 2]),
        MARK.to_vec(),
        vec![0x52],
        vec![0, 0],
        vec![0x52, 0x9F, 3, 0, 7, 9, 0],
        vec![0x52, 0x9E, 3, 0, 0, 0],
        vec![0x52, 0xA0, 3, 0, 7, 0, 0],
    ];
    let each: Vec<u8> = (0..pieces.len() as u8).collect();
    every_string(&each, 5, &mut |row| {
        let row = row.iter().map(|&piece| &pieces[usize::from(piece)][..]);
        let book = row.collect::<Vec<_>>().concat();
        let buffer = [&book[..], &[0x52; 9]].concat();
        let used = book.len();
        agrees(&mut rng, Lent::new(&buffer, used));
    });
}

/// A buffer to which phrases are added one after another.
struct Filling {
    before: Vec<u8>,
    buffer: Vec<u8>,
    used: usize,
    accepted: Vec<Phrase>,
}

impl Filling {
    /// An empty book in a buffer of random bytes.
    fn new(rng: &mut Rng, size: usize) -> Self {
        let before = bytes(rng, size);
        Filling {
            buffer: before.clone(),
            before,
            used: 0,
            accepted: Vec::new(),
        }
    }

    fn last(&self) -> Option<u16> {
        self.accepted.last().map(|phrase| phrase.number)
    }

    fn lent(&self) -> Lent<'_> {
        Lent::new(&self.buffer, self.used)
    }

    /// Tries an addition, in any edition. The book then holds the tapes of those that were
    /// accepted, in order and with their sets, and the rest of the buffer is as it was.
    fn add(&mut self, rng: &mut Rng, listener: u32, phrase: u16, msg: &[u8]) -> u32 {
        let [one, two] = add_in_both(rng, self.lent(), listener, phrase, msg);
        let edition = rng.pick(&EDITIONS);
        let Tried { added, set, buffer } = match edition {
            Edition::One => one,
            Edition::Two => two,
        };
        if added.number == 0 {
            let tape = tape_of(edition, msg);
            self.accepted.push(Phrase::new(phrase, set, &tape));
            self.used = added.used;
        }
        let book = laid(&self.accepted);
        assert_eq!(self.used, book.len());
        assert_eq!(buffer, [&book[..], &self.before[book.len()..]].concat());
        self.buffer = buffer;
        added.number
    }

    /// A lookup must give the tape that was accepted under this number for a set with the listener,
    /// if one was.
    fn find(&self, rng: &mut Rng, listener: u32, phrase: u16) {
        let found = find(rng, self.lent(), listener, phrase);
        let own = match listener {
            PUMP => 1,
            ROAD => 2,
            DISPATCH => 4,
            _ => 0,
        };
        let mut heard = self.accepted.iter().filter(|heard| heard.set & own != 0);
        let tape = heard.find(|heard| heard.number == phrase);
        let given = &self.buffer[found.start..][..found.length];
        let given = (found.found == 1).then_some(given);
        assert_eq!(given, tape.map(|heard| &heard.tape[..]), "{phrase}");
    }
}

/// By all listeners.
#[test]
fn lists_of_additions() {
    let mut rng = Rng::for_test(133);
    let mut met = [0; 18];
    for _ in 0..1500 {
        let size = rng.pick(&[0, 20, 100, 500, 2000, 9000]) + rng.below(60);
        let mut filling = Filling::new(&mut rng, size);
        for _ in 0..rng.between(1, 50) {
            let listener = any_adder(&mut rng);
            let phrase = any_number(&mut rng, filling.last());
            let msg = any_message(&mut rng);
            met[filling.add(&mut rng, listener, phrase, &msg) as usize] += 1;
            for phrase in numbers(&mut rng, &filling.buffer[..filling.used], 2) {
                let listener = any_listener(&mut rng);
                filling.find(&mut rng, listener, phrase);
            }
        }
        for phrase in &filling.accepted {
            for listener in LISTENERS {
                filling.find(&mut rng, listener, phrase.number);
            }
        }
    }
    println!("answers by their numbers: {met:?}");
    let expected = (0..=11).chain([16, 17]);
    assert!(expected.map(|number: usize| met[number]).min() >= Some(20));
    assert_eq!(met[12..16], [0; 4]);
}

#[test]
fn additions_to_sound_books_in_short_buffers() {
    let mut rng = Rng::for_test(134);
    for _ in 0..5000 {
        let book = laid(&phrases(&mut rng, 5));
        let msg = any_message(&mut rng);
        let full = record_bytes(&msg);
        for short in [0, 1, 2, 6, 7, 8, rng.below(full), full, full + 1] {
            let free = full.saturating_sub(short) + rng.pick(&[0, 0, 9]);
            let buffer = [&book[..], &bytes(&mut rng, free)].concat();
            let used = book.len();
            let lent = Lent::new(&buffer, used);
            let phrase = rng.pick(&[u16::MAX, 65_534, 65_000, 700]);
            add(&mut rng, lent, DISPATCH, phrase, &msg);
        }
    }
}

/// What an addition makes of a sound book: what was found before is found as it was, and for whom.
#[test]
fn an_addition_leaves_the_other_phrases() {
    let mut rng = Rng::for_test(135);
    for _ in 0..2000 {
        let phrases = phrases(&mut rng, 8);
        let book = laid(&phrases);
        let buffer = [&book[..], &[0; 100]].concat();
        let used = book.len();
        let lent = Lent::new(&buffer, used);
        let asked: Vec<(u32, &Phrase)> = phrases
            .iter()
            .map(|phrase| (rng.pick(&LISTENERS), phrase))
            .collect();
        let before: Vec<Found> = asked
            .iter()
            .map(|&(listener, phrase)| find(&mut rng, lent, listener, phrase.number))
            .collect();
        let tried = add(&mut rng, lent, DISPATCH, u16::MAX, &cp1251("ду*б"));
        let (added, buffer) = (tried.added, tried.buffer);
        let used = if added.number == 0 { added.used } else { used };
        let lent = Lent::new(&buffer, used);
        for ((listener, phrase), before) in asked.into_iter().zip(before) {
            let after = find(&mut rng, lent, listener, phrase.number);
            assert_eq!(after, before);
            if after.number == 0 {
                assert_eq!(buffer[after.start..][..after.length], phrase.tape);
            }
        }
    }
}

/// What is wrong with a book is told to all alike.
#[test]
fn muddled_books() {
    let mut rng = Rng::for_test(136);
    let mut refused = [0; 18];
    for _ in 0..50_000 {
        let phrases = phrases(&mut rng, 6);
        let damage = rng.pick(&DAMAGES);
        let mut buffer = match books::damaged(&mut rng, &phrases, damage) {
            Some((damaged, _)) if rng.one_in(2) => damaged,
            _ => laid(&phrases),
        };
        for _ in 0..rng.between(0, 3) {
            muddle(&mut rng, &mut buffer);
        }
        let used = buffer.len() + rng.pick(&[0, 0, 1, 1000]);
        let free = rng.pick(&[0, 8, 11, 40]);
        buffer.extend(bytes(&mut rng, free));
        let lent = Lent::new(&buffer, used);
        let listeners = [any_listener(&mut rng), any_listener(&mut rng)];
        let [one, other] = listeners.map(|listener| find(&mut rng, lent, listener, 1));
        if [15, 16].contains(&one.number) {
            assert_eq!(one, other);
        }
        refused[one.number as usize] += 1;
        agrees(&mut rng, lent);
    }
    println!("answers by their numbers: {refused:?}");
    let met = [15, 16, 17].map(|number: usize| refused[number]);
    assert!(met.into_iter().min() >= Some(5000));
}

/// Of the bytes that records are made of, and of any.
#[test]
fn bytes_without_any_order() {
    let mut rng = Rng::for_test(137);
    for _ in 0..50_000 {
        let length = rng.below(40);
        let buffer = match rng.below(3) {
            0 => bytes(&mut rng, length),
            1 => string(&mut rng, b"\x52\x9F\x00\x01", length),
            _ => string(&mut rng, b"\x52\x9F\x52\x9F\x02\x00\x9E", length),
        };
        let used = rng.below(length + 3);
        let buffer = &buffer;
        agrees(&mut rng, Lent::new(buffer, used));
    }
}

/// Neither the answer of a lookup nor that of an addition but for the number 11.
#[test]
fn bytes_behind_the_book_do_not_matter() {
    let mut rng = Rng::for_test(138);
    let msg = cp1251("вода*");
    for _ in 0..5000 {
        let mut book = laid(&phrases(&mut rng, 5));
        if rng.one_in(2) {
            muddle(&mut rng, &mut book);
        }
        let used = book.len();
        let behind = [20, 20, 200].map(|free| [&book[..], &bytes(&mut rng, free)].concat());
        for phrase in numbers(&mut rng, &book, 3) {
            let listener = any_listener(&mut rng);
            let found = unit::book_find(listener, &book, used, phrase);
            let added = behind.each_ref().map(|buffer| {
                assert_eq!(unit::book_find(listener, buffer, used, phrase), found);
                EDITIONS.map(|edition| {
                    let buffer = &mut buffer.clone();
                    unit::book_add(DISPATCH, edition, buffer, used, phrase, 7, &msg)
                })
            });
            assert_eq!(added, [[added[0][0]; 2]; 3]);
        }
    }
}

/// The book, and the message that is added, right after a fence or right before one.
#[test]
fn nothing_outside_is_touched() {
    let mut rng = Rng::for_test(139);
    let (mut books, mut messages) = (Fenced::new(1 << 19), Fenced::new(20_000));
    for round in 0..10_000 {
        let (side, other_side) = (SIDES[round % 2], SIDES[round / 2 % 2]);
        let mut buffer = laid(&phrases(&mut rng, 4));
        if rng.one_in(2) {
            muddle(&mut rng, &mut buffer);
        }
        let msg = any_message(&mut rng);
        let full = record_bytes(&msg);
        let used = buffer.len() + rng.pick(&[0, 0, 0, 5]);
        let free = rng.pick(&[0, 1, full - 1, full, full, full + 9]);
        buffer.extend(bytes(&mut rng, free));
        let lent = Lent::new(&buffer, used);
        let book = side(&mut books, buffer.len());
        book.copy_from_slice(&buffer);
        for phrase in numbers(&mut rng, &buffer, 2) {
            let lookup = lent.lookup(any_listener(&mut rng), phrase);
            let tried = lookup.in_place(book);
            tried.unwrap_or_else(|difference| panic!("{difference}"));
        }
        let placed = other_side(&mut messages, msg.len());
        placed.copy_from_slice(&msg);
        let phrase = rng.pick(&[u16::MAX, 65_000, 700]);
        let (listener, set) = (any_adder(&mut rng), any_set(&mut rng));
        for edition in EDITIONS {
            book.copy_from_slice(&buffer);
            let addition = lent.addition(listener, edition, phrase, set, &msg);
            let tried = addition.in_place(placed, book);
            tried.unwrap_or_else(|difference| panic!("{difference}"));
        }
    }
}

/// A constant stands in memory that is not to be written, even with what it holds already.
#[test]
fn a_lookup_writes_nothing() {
    static BOOK: [u8; 18] =
        *b"\x52\x9F\x05\x00\x07\x01\x00\x07\x52\x9F\x09\x00\x06\x03\x00\x18\x06\x27";
    for used in 0..=BOOK.len() + 1 {
        let lent = Lent::new(&BOOK, used);
        for phrase in [0, 5, 9, 10] {
            for listener in [PUMP, ROAD, DISPATCH, 3] {
                let tried = lent.lookup(listener, phrase).in_place(&BOOK);
                tried.unwrap_or_else(|difference| panic!("{difference}"));
            }
        }
    }
}

#[test]
fn thousands_of_additions() {
    const COUNT: u16 = 4000;
    let mut rng = Rng::for_test(140);
    let before = bytes(&mut rng, 30 * usize::from(COUNT));
    let (mut buffer, mut used) = (before.clone(), 0);
    let mut accepted = Vec::new();
    for index in 0..COUNT {
        let length = rng.between(1, 20);
        let (msg, set) = (message(&mut rng, length), any_set(&mut rng));
        let (phrase, copy) = (16 * index + rng.below(16) as u16, buffer.clone());
        let lent = Lent::new(&copy, used);
        let edition = rng.pick(&EDITIONS);
        let addition = lent.addition(DISPATCH, edition, phrase, set, &msg);
        let tried = addition.in_place(&msg, &mut buffer);
        let added = tried.unwrap_or_else(|difference| panic!("{difference}"));
        assert_eq!((added.number, added.place), (0, 0));
        used = added.used;
        accepted.push(Phrase::new(phrase, set, &tape_of(edition, &msg)));
    }
    let book = laid(&accepted);
    assert_eq!(used, book.len());
    assert_eq!(buffer, [&book[..], &before[book.len()..]].concat());
    let lent = Lent::new(&buffer, used);
    for phrase in accepted {
        let listener = rng.pick(&LISTENERS);
        let found = lent.lookup(listener, phrase.number).in_place(&buffer);
        let found = found.unwrap_or_else(|difference| panic!("{difference}"));
        match phrase.set >> listener & 1 {
            1 => assert_eq!(buffer[found.start..][..found.length], phrase.tape),
            _ => assert_eq!((found.number, found.place), (17, 0)),
        }
    }
}

/// A book can have no more records than there are numbers.
#[test]
fn every_number_in_one_book() {
    let mut rng = Rng::for_test(141);
    let all: Vec<Phrase> = (0..=u16::MAX)
        .map(|number| {
            let tape = &number.to_be_bytes()[..usize::from(number) % 3];
            Phrase::new(number, number as u8, tape)
        })
        .collect();
    let mut book = laid(&all);
    let random: Vec<u16> = (0..300).map(|_| rng.bits() as u16).collect();
    for phrase in random.into_iter().chain([0, 1, 65_534, 65_535]) {
        let listener = rng.pick(&LISTENERS);
        let found = find(&mut rng, Lent::whole(&book), listener, phrase);
        if phrase >> listener & 1 == 1 {
            let tape = &book[found.start..][..found.length];
            assert_eq!(tape, all[usize::from(phrase)].tape, "{phrase}");
        } else {
            assert_eq!((found.number, found.place), (17, 0), "{phrase}");
        }
        let Tried { added, .. } = add(&mut rng, Lent::whole(&book), DISPATCH, phrase, &cp1251("а"));
        assert_eq!((added.number, added.place), (16, book.len()));
    }
    // What is wrong with the last record is said in any lookup.
    let last = book.len() - HEAD;
    book[last + 2] -= 1;
    assert_eq!(find(&mut rng, Lent::whole(&book), PUMP, 0).number, 16);
    book[last] = 0;
    assert_eq!(find(&mut rng, Lent::whole(&book), PUMP, 0).number, 15);
}

/// With the longest tapes 65,535 records take more bytes than 32 bits can count.
#[test]
fn books_above_32_bits() {
    const RECORD: usize = HEAD + 65_535;
    const BOOK: usize = 65_535 * RECORD;
    const LAST: usize = BOOK - RECORD;
    let mut memory = Fenced::filled(BOOK + HEAD + 1, &[0]);
    let buffer = memory.first(BOOK + HEAD + 1);
    for number in 0..u16::MAX {
        let [low, high] = number.to_le_bytes();
        let head = [0x52, 0x9F, low, high, 0b101, 0xFF, 0xFF];
        buffer[usize::from(number) * RECORD..][..HEAD].copy_from_slice(&head);
    }
    let answer = |found: Found| (found.number, found.place, found.start, found.length);
    let find = |buffer: &[u8], used, phrase| answer(unit::book_find(PUMP, buffer, used, phrase));
    let add = |buffer: &mut [u8], used, phrase| {
        let added = EDITIONS.map(|edition| {
            unit::book_add(DISPATCH, edition, buffer, used, phrase, 0xF1, &cp1251("а"))
        });
        assert_eq!(added[0], added[1]);
        (added[0].number, added[0].place, added[0].used)
    };
    assert_eq!(find(buffer, BOOK, 0), (0, 0, HEAD, 65_535));
    assert_eq!(find(buffer, BOOK, 65_534), (0, 0, LAST + HEAD, 65_535));
    let road = answer(unit::book_find(ROAD, buffer, BOOK, 65_534));
    assert_eq!(road, (17, 0, 0, 0));
    assert_eq!(find(buffer, BOOK - 1, 0), (15, LAST, 0, 0));
    assert_eq!(find(buffer, BOOK + 1, 0), (15, BOOK, 0, 0));
    assert_eq!(add(buffer, BOOK, 65_534), (16, BOOK, 0));
    assert_eq!(
        add(&mut buffer[..BOOK + HEAD], BOOK, 65_535),
        (11, BOOK + 8, 0)
    );
    assert_eq!(add(buffer, BOOK, 65_535), (0, 0, BOOK + 8));
    assert_eq!(buffer[BOOK..], *b"\x52\x9F\xFF\xFF\xF1\x01\x00\x07");
    assert_eq!(find(buffer, usize::MAX, 65_535), (0, 0, BOOK + HEAD, 1));
    assert_eq!(add(buffer, usize::MAX, 65_535), (16, BOOK + 8, 0));
    buffer[LAST + 2] -= 1;
    assert_eq!(find(buffer, BOOK, 0), (16, LAST, 0, 0));
    assert_eq!(add(buffer, BOOK, 65_535), (16, LAST, 0));
}
