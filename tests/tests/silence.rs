//! The law of request 7 of document 02: no answer tells a listener anything of the phrases that he
//! may not hear. Pairs of sound books, laid by hand or made by additions, that differ in nothing but
//! those get the same lookups, and every answer is held to the second implementation, too.

use std::collections::{BTreeMap, BTreeSet};

use govorun_tests::book::record;
use govorun_tests::book_trial::Lent;
use govorun_tests::gen::books::{
    any_listener, any_set, any_tape, laid, numbers, phrases, Phrase, NOBODY,
};
use govorun_tests::gen::noise::bytes;
use govorun_tests::gen::{message, Rng};
use govorun_tests::unit::{self, Found, DISPATCH, LISTENERS, PUMP, ROAD};
use govorun_tests::{cp1251, tape, Edition, EDITIONS};

/// All that a lookup hands back. Where in the book the tape stands is not handed on.
#[derive(Clone, Debug, PartialEq, Eq, PartialOrd, Ord)]
struct Answer {
    number: u32,
    place: usize,
    found: u32,
    tape: Vec<u8>,
}

impl Answer {
    fn of(found: Found, buffer: &[u8]) -> Self {
        Answer {
            number: found.number,
            place: found.place,
            found: found.found,
            tape: buffer[found.start..][..found.length].to_vec(),
        }
    }
}

/// A lookup, with other bytes around the buffer: the answer, and where the tape stands.
fn ask(rng: &mut Rng, lent: Lent, listener: u32, phrase: u16) -> (Answer, usize) {
    let tried = lent.lookup(listener, phrase).among_others(rng);
    let found = tried.unwrap_or_else(|difference| panic!("{difference}"));
    (Answer::of(found, lent.buffer), found.start)
}

/// The bit of a listener in a set. Nobody has one.
fn bit(listener: u32) -> u8 {
    match listener {
        PUMP => 1,
        ROAD => 2,
        DISPATCH => 4,
        _ => 0,
    }
}

/// What of a book a listener may hear: numbers and tapes.
fn audible(listener: u32, phrases: &[Phrase]) -> Vec<(u16, &[u8])> {
    let heard = phrases
        .iter()
        .filter(|phrase| phrase.set & bit(listener) != 0);
    heard
        .map(|phrase| (phrase.number, &phrase.tape[..]))
        .collect()
}

/// A set that has the listener in it, or one that has not.
fn set_with(rng: &mut Rng, listener: u32, is_heard: bool) -> u8 {
    let others = any_set(rng) & !bit(listener);
    others | if is_heard { bit(listener) } else { 0 }
}

/// Other phrases of which a listener may hear the same: those may be for others as well, or no
/// more; the rest are left out, changed or kept, and some come in between, before and behind.
fn with_other_secrets(
    rng: &mut Rng,
    listener: u32,
    phrases: &[Phrase],
    any_tape: fn(&mut Rng) -> Vec<u8>,
) -> Vec<Phrase> {
    let mut others = BTreeMap::new();
    for _ in 0..rng.below(5) {
        let near = phrases[rng.below(phrases.len())].number;
        let beside = near.wrapping_add(rng.pick(&[1, 2, u16::MAX, u16::MAX - 1]));
        let number = rng.pick(&[beside, beside, 0, u16::MAX]);
        let secret = Phrase::new(number, set_with(rng, listener, false), &any_tape(rng));
        others.insert(number, secret);
    }
    for phrase in phrases {
        let is_heard = phrase.set & bit(listener) != 0;
        let tape = match is_heard || rng.one_in(3) {
            true => phrase.tape.clone(),
            false => any_tape(rng),
        };
        let set = set_with(rng, listener, is_heard);
        if is_heard || !rng.one_in(3) {
            others.insert(phrase.number, Phrase::new(phrase.number, set, &tape));
        }
    }
    others.into_values().collect()
}

/// A buffer with this book and any bytes behind it.
fn roomy(rng: &mut Rng, book: Vec<u8>) -> Vec<u8> {
    let free = rng.pick(&[0, 0, 1, 8, 50]);
    [book, bytes(rng, free)].concat()
}

/// How many lookups of pairs gave what.
#[derive(Debug, Default)]
struct Count {
    /// A tape, at one place in both books.
    heard: usize,
    /// A tape, but not at one place.
    moved: usize,
    /// None, with no such phrase in either book.
    missing: usize,
    /// None, with such a phrase in one book alone.
    in_one: usize,
    /// None, with such a phrase in both books.
    in_both: usize,
}

impl Count {
    /// Tries a list of lookups on two buffers with books of these phrases, which must get the same
    /// answers.
    fn compare(&mut self, rng: &mut Rng, listener: u32, phrases: [&[Phrase]; 2], pair: [Lent; 2]) {
        let asked = pair.map(|lent| numbers(rng, &lent.buffer[..lent.used], 6));
        let asked = asked.concat();
        for _ in 0..rng.between(1, asked.len()) {
            let phrase = rng.pick(&asked);
            let [(one, start), (other, other_start)] =
                pair.map(|lent| ask(rng, lent, listener, phrase));
            assert_eq!(one, other, "{phrase} by {listener} in {pair:?}");
            let has = |phrases: &[Phrase]| phrases.iter().any(|known| known.number == phrase);
            let counted = match (one.number, phrases.map(has)) {
                (0, _) if start == other_start => &mut self.heard,
                (0, _) => &mut self.moved,
                (_, [true, true]) => &mut self.in_both,
                (_, [false, false]) => &mut self.missing,
                _ => &mut self.in_one,
            };
            *counted += 1;
        }
    }

    /// Each kind of lookup was met so often; nobody hears anything.
    fn at_least(&self, listener: u32, least: usize) {
        println!("{listener}: {self:?}");
        let silent = [self.missing, self.in_one, self.in_both];
        assert!(silent.into_iter().min() >= Some(least));
        let heard = [self.heard, self.moved];
        match bit(listener) {
            0 => assert_eq!(heard, [0, 0]),
            _ => assert!(heard.into_iter().min() >= Some(least)),
        }
    }
}

/// Records of other phrases come and go, and change their numbers, sets, tapes and places.
#[test]
fn what_is_not_heard_changes_no_answer() {
    let mut rng = Rng::for_test(160);
    for listener in LISTENERS.into_iter().chain([3, DISPATCH + 256]) {
        let mut count = Count::default();
        for _ in 0..2000 {
            let most = rng.between(1, 9);
            let one = phrases(&mut rng, most);
            let other = with_other_secrets(&mut rng, listener, &one, any_tape);
            if one == other {
                continue;
            }
            assert_eq!(audible(listener, &one), audible(listener, &other));
            let books = [&one, &other].map(|phrases| laid(phrases));
            let used = books.each_ref().map(Vec::len);
            let [first, second] = books.map(|book| roomy(&mut rng, book));
            let pair = [Lent::new(&first, used[0]), Lent::new(&second, used[1])];
            count.compare(&mut rng, listener, [&one, &other], pair);
        }
        count.at_least(listener, 500);
    }
}

/// A phrase in short: its number, its set and its tape.
type Short = (u16, u8, &'static [u8]);

/// All answers to a listener in a book of these phrases, whatever is looked up.
fn all_answers(listener: u32, phrases: &[Short]) -> Vec<Answer> {
    let records = phrases.iter();
    let book: Vec<u8> = records
        .flat_map(|&(number, set, tape)| record(number, set, tape))
        .collect();
    let find = |phrase| unit::book_find(listener, &book, book.len(), phrase);
    let answers = (0..=u16::MAX).map(|phrase| Answer::of(find(phrase), &book));
    answers.collect()
}

/// Three phrases, of which the listener may hear the middle one, and then others in their place.
#[test]
fn each_change_and_every_number() {
    for (listener, own, others) in [(PUMP, 1, 6), (ROAD, 2, 5), (DISPATCH, 4, 3)] {
        let (first, last): (Short, Short) = ((5, others, &[7]), (900, others, &[]));
        let middle: Short = (300, own, &[24, 6, 39]);
        let answers = all_answers(listener, &[first, middle, last]);
        let is_found = |&number: &usize| answers[number].found == 1;
        let found: Vec<usize> = (0..answers.len()).filter(is_found).collect();
        assert_eq!(found, [300]);
        let same: [&[Short]; 10] = [
            &[middle],
            &[first, middle],
            &[middle, last],
            &[(299, others, &[7]), middle, last],
            &[(5, others, &[1, 2, 3]), middle, (301, others, &[9; 300])],
            &[(5, 0, &[7]), middle, (900, 0xF8 | others, &[])],
            &[(0, others, &[]), first, middle, (65_535, others, &[1])],
            &[first, middle, (900, others, middle.2)],
            &[first, (300, 7, middle.2), last],
            &[first, (300, 0xF8 | own, middle.2), last],
        ];
        for phrases in same {
            let given = all_answers(listener, phrases);
            assert_eq!(given, answers, "{listener} {phrases:?}");
        }
        let different: [&[Short]; 8] = [
            &[],
            &[first, last],
            &[first, (300, others, middle.2), last],
            &[first, (301, own, middle.2), last],
            &[first, (300, own, &[24, 6]), last],
            &[first, (300, own, &[24, 6, 40]), last],
            &[(5, 7, &[7]), middle, last],
            &[first, middle, last, (901, own, &[])],
        ];
        for phrases in different {
            let given = all_answers(listener, phrases);
            assert_ne!(given, answers, "{listener} {phrases:?}");
        }
    }
}

/// Each phrase that a small book can have under a number, and that it has none.
fn choices(number: u16) -> Vec<Option<Phrase>> {
    let sets = [0, 1, 2, 3, 4, 5, 6, 7, 0xF8];
    let tapes = [&[][..], &[7], &[7, 8]];
    let mut choices = vec![None];
    for set in sets {
        choices.extend(tapes.map(|tape| Some(Phrase::new(number, set, tape))));
    }
    choices
}

/// All books of up to three phrases with the numbers 1 to 3.
fn small_books() -> Vec<Vec<Phrase>> {
    let mut books = vec![Vec::new()];
    for number in 1..=3 {
        let choices = choices(number);
        let longer = |book: &Vec<Phrase>| {
            let with = |choice: &Option<Phrase>| book.iter().chain(choice).cloned().collect();
            choices.iter().map(with).collect::<Vec<_>>()
        };
        books = books.iter().flat_map(longer).collect();
    }
    books
}

/// Two books give the same answers exactly where the listener may hear the same of them; so the
/// answers tell that and nothing else.
#[test]
fn answers_tell_what_may_be_heard_and_nothing_else() {
    let books = small_books();
    assert_eq!(books.len(), 28 * 28 * 28);
    for (listener, kinds) in [(PUMP, 64), (ROAD, 64), (DISPATCH, 64), (3, 1), (258, 1)] {
        let mut answers_by_heard = BTreeMap::new();
        for phrases in &books {
            let book = laid(phrases);
            let find = |phrase| unit::book_find(listener, &book, book.len(), phrase);
            let answers = [0, 1, 2, 3, 4].map(|phrase| Answer::of(find(phrase), &book));
            let heard = audible(listener, phrases);
            let first = answers_by_heard
                .entry(heard)
                .or_insert_with(|| answers.clone());
            assert_eq!(answers, *first, "{listener} {phrases:?}");
        }
        let answers: BTreeSet<_> = answers_by_heard.values().collect();
        assert_eq!((answers_by_heard.len(), answers.len()), (kinds, kinds));
    }
}

/// One phrase has another tape, or is now heard, or no more.
#[test]
fn books_that_differ_in_what_is_heard_are_told_apart() {
    let mut rng = Rng::for_test(161);
    let mut count = 0;
    for _ in 0..5000 {
        let listener = rng.pick(&LISTENERS);
        let one = phrases(&mut rng, 6);
        let chosen = rng.below(one.len());
        let mut other = with_other_secrets(&mut rng, listener, &one, any_tape);
        let number = one[chosen].number;
        let Some(changed) = other.iter_mut().find(|phrase| phrase.number == number) else {
            continue;
        };
        match rng.below(2) {
            0 => changed.set ^= bit(listener),
            _ => changed.tape = any_tape(&mut rng),
        }
        let [(first, _), (second, _)] = [&one, &other].map(|phrases| {
            let book = laid(phrases);
            ask(&mut rng, Lent::whole(&book), listener, number)
        });
        let is_same = audible(listener, &one) == audible(listener, &other);
        assert_eq!(first == second, is_same);
        count += usize::from(!is_same);
    }
    assert!(count >= 1000);
}

/// The answers to a list of lookups.
fn answers(rng: &mut Rng, lent: Lent, listener: u32, asked: &[u16]) -> Vec<Answer> {
    let ask = |&phrase: &u16| ask(rng, lent, listener, phrase).0;
    asked.iter().map(ask).collect()
}

/// Neither an accepted one nor a refused one; but one that is for the listener, too, does.
#[test]
fn additions_for_others_change_no_answer() {
    let mut rng = Rng::for_test(162);
    let (mut accepted, mut refused, mut heard) = (0, 0, 0);
    for _ in 0..5000 {
        let book = laid(&phrases(&mut rng, 6));
        let free = rng.pick(&[0, 20, 100, 100]);
        let buffer = [&book[..], &bytes(&mut rng, free)].concat();
        let lent = Lent::new(&buffer, book.len());
        let phrase = rng.pick(&[u16::MAX, 65_000, 65_000, 700]);
        let listener = any_listener(&mut rng);
        let is_heard = rng.one_in(4) && bit(listener) != 0;
        let set = set_with(&mut rng, listener, is_heard);
        let mut asked = numbers(&mut rng, &book, 6);
        asked.extend([phrase, phrase - 1, phrase.wrapping_add(1)]);
        let before = answers(&mut rng, lent, listener, &asked);
        let msg = cp1251(rng.pick(&["ду*б", "са*д к до*му", "а", "а#"]));
        let addition = lent.addition(DISPATCH, rng.pick(&EDITIONS), phrase, set, &msg);
        let tried = addition.among_others(&mut rng);
        let (added, after) = tried.unwrap_or_else(|difference| panic!("{difference}"));
        let used = if added.number == 0 {
            added.used
        } else {
            book.len()
        };
        let after = answers(&mut rng, Lent::new(&after, used), listener, &asked);
        let is_new = is_heard && added.number == 0;
        assert_eq!(before == after, !is_new, "{listener} {set}");
        accepted += usize::from(added.number == 0);
        refused += usize::from(added.number != 0);
        heard += usize::from(is_new);
    }
    println!("{accepted} accepted, {heard} of them heard, {refused} refused");
    assert!([accepted, refused, heard].into_iter().min() >= Some(200));
}

fn any_message(rng: &mut Rng) -> Vec<u8> {
    let length = rng.between(1, 12);
    message(rng, length)
}

/// Phrases with rising numbers and messages in the place of their tapes.
fn messages(rng: &mut Rng) -> Vec<Phrase> {
    let most = rng.between(1, 9);
    let mut messages = phrases(rng, most);
    messages
        .iter_mut()
        .for_each(|said| said.tape = any_message(rng));
    messages
}

/// The edition in which the phrase with a number is added: even ones in edition 1, odd ones in 2.
fn edition_of(number: u16) -> Edition {
    EDITIONS[usize::from(number % 2)]
}

/// The phrases that are in the book once these messages are.
fn taped(messages: &[Phrase]) -> Vec<Phrase> {
    let taped = |said: &Phrase| {
        let tape = tape(edition_of(said.number), &said.tape, usize::MAX);
        let tape = tape.expect("an accepted message");
        Phrase::new(said.number, said.set, &tape)
    };
    messages.iter().map(taped).collect()
}

/// A buffer to which dispatch has added these messages while others tried to add some, too; and its
/// used count.
fn added(rng: &mut Rng, messages: &[Phrase]) -> (Vec<u8>, usize) {
    let room = laid(&taped(messages)).len() + rng.below(50);
    let (mut buffer, mut used) = (bytes(rng, room), 0);
    let mut add = |rng: &mut Rng, listener: u32, said: &Phrase| {
        let lent = Lent::new(&buffer, used);
        let edition = edition_of(said.number);
        let addition = lent.addition(listener, edition, said.number, said.set, &said.tape);
        let tried = addition.among_others(rng);
        let (added, after) = tried.unwrap_or_else(|difference| panic!("{difference}"));
        match listener {
            DISPATCH => assert_eq!(added.number, 0),
            _ => assert_eq!((added.number, &after), (17, &buffer)),
        }
        if added.number == 0 {
            (buffer, used) = (after, added.used);
        }
    };
    for said in messages {
        while rng.one_in(2) {
            let other = rng.pick(&[PUMP, ROAD, NOBODY[0], DISPATCH + 256]);
            let said = Phrase::new(rng.bits() as u16, any_set(rng), &any_message(rng));
            add(rng, other, &said);
        }
        add(rng, DISPATCH, said);
    }
    (buffer, used)
}

/// As above, but with books that additions made.
#[test]
fn lists_of_additions_tell_a_listener_only_what_is_for_him() {
    let mut rng = Rng::for_test(163);
    for listener in LISTENERS.into_iter().chain([4]) {
        let mut count = Count::default();
        for _ in 0..500 {
            let one = messages(&mut rng);
            let other = with_other_secrets(&mut rng, listener, &one, any_message);
            if one == other {
                continue;
            }
            let [(first, used_first), (second, used_second)] =
                [&one, &other].map(|messages| added(&mut rng, messages));
            let pair = [
                Lent::new(&first, used_first),
                Lent::new(&second, used_second),
            ];
            count.compare(&mut rng, listener, [&one, &other], pair);
        }
        count.at_least(listener, 100);
    }
}

/// After additions by all, each listener hears the accepted phrases with his bit in their sets, and
/// nothing else under any number.
#[test]
fn each_listener_hears_just_his_phrases() {
    let mut rng = Rng::for_test(164);
    for _ in 0..100 {
        let said = messages(&mut rng);
        let (buffer, used) = added(&mut rng, &said);
        let phrases = taped(&said);
        assert_eq!(buffer[..used], laid(&phrases));
        for listener in [PUMP, ROAD, DISPATCH, 3] {
            let mut heard = Vec::new();
            for phrase in 0..=u16::MAX {
                let found = unit::book_find(listener, &buffer, used, phrase);
                match found.number {
                    0 => heard.push((phrase, &buffer[found.start..][..found.length])),
                    number => assert_eq!((number, found.place), (17, 0)),
                }
            }
            assert_eq!(heard, audible(listener, &phrases), "{listener}");
        }
    }
}
