//! How much stack each function of the library takes: it is called on a stack of our own, painted
//! before, and the deepest changed byte is found afterwards. No proof bounds the stack.

use std::arch::asm;

use govorun_tests::book::{self, Listener, HEAD};
use govorun_tests::book_trial::Lent;
use govorun_tests::fence::Fenced;
use govorun_tests::gen::books::{laid, muddle, phrases, Phrase};
use govorun_tests::gen::damaged::SPOTS;
use govorun_tests::gen::utf8::{taken, untaken};
use govorun_tests::gen::{damaged, extreme_messages, noise, punctuated, Rng};
use govorun_tests::message::breaks;
use govorun_tests::spoken_levels::LONGEST;
use govorun_tests::unit::{newer, raw, Added, Found, Text, DISPATCH, PUMP, ROAD};
use govorun_tests::utf8::written;
use govorun_tests::{check, speak_level, Edition, Refusal, EDITIONS};

/// The most that a call may take, in bytes, its return address with it, as the header says it.
fn bound() -> usize {
    let header = include_str!("../../include/govorun.h");
    let said = header.split_once("it uses at most ");
    let said = said.and_then(|(_, rest)| rest.split_once(" bytes of stack, its return address"));
    let (number, _) = said.expect("the header names a bound");
    number.replace(',', "").parse().expect("a number of bytes")
}

/// How many bytes a caller puts on the stack: four arguments, which keep the stack aligned.
const ABOVE: usize = 32;

/// What the upper half of a register may hold where an argument takes the lower: of that nothing is
/// said.
const UPPER: usize = 0x5A5A_5A5A << 32;

/// What stands in the place for an answer before the call.
const NO_ANSWER: Refusal = Refusal {
    number: u8::MAX,
    place: usize::MAX,
};

/// A painted stack.
struct Stack {
    memory: Fenced,
    paint: Vec<u8>,
}

impl Stack {
    fn new(rng: &mut Rng) -> Self {
        let mut memory = Fenced::new(1 << 18);
        let paint = noise::bytes(rng, memory.whole().len());
        Stack { memory, paint }
    }

    /// Calls a function of the C interface with these arguments and gives the number of its answer
    /// and how many bytes of stack it touched.
    fn call(&mut self, function: *const (), arguments: &[usize]) -> (u32, usize) {
        let mut ten = [0; 10];
        ten[..arguments.len()].copy_from_slice(arguments);
        let [six @ .., seventh, eighth, ninth, tenth] = ten;
        let whole = self.memory.whole();
        whole.copy_from_slice(&self.paint);
        let (stack, above) = whole.split_at_mut(whole.len() - ABOVE);
        let others = [seventh, eighth, ninth, tenth].map(usize::to_ne_bytes);
        above.copy_from_slice(others.as_flattened());
        let top = stack.as_mut_ptr_range().end;
        // SAFETY: the stack is ours, and the caller hands the arguments that the function takes.
        let number = unsafe { call_on(top, function, six) };
        (number, self.touched())
    }

    fn touched(&mut self) -> usize {
        let whole = self.memory.whole();
        let stack = &whole[..whole.len() - ABOVE];
        let changed = stack.iter().zip(&self.paint).position(|(a, b)| a != b);
        stack.len() - changed.unwrap_or(stack.len())
    }
}

/// Calls a function of up to ten whole numbers on another stack, above which the last four stand.
/// All answers of the interface but editor's, reader's and the book's come back in two registers,
/// the number in the lower half of the first.
///
/// # Safety
/// The function takes these arguments, and `top` is the end of a long enough stack.
unsafe fn call_on(top: *mut u8, function: *const (), arguments: [usize; 6]) -> u32 {
    let [first, second, third, fourth, fifth, sixth] = arguments;
    let answer: u64;
    asm!(
        "mov r12, rsp",
        "mov rsp, {top}",
        "call {function}",
        "mov rsp, r12",
        top = in(reg) top,
        function = in(reg) function,
        in("rdi") first,
        in("rsi") second,
        in("rdx") third,
        in("rcx") fourth,
        in("r8") fifth,
        in("r9") sixth,
        out("r12") _,
        out("rax") answer,
        clobber_abi("C"),
    );
    answer as u32
}

/// The most stack that each function was seen to touch.
#[derive(Debug, Default)]
struct Deepest {
    edit: usize,
    read_utf8: usize,
    write_utf8: usize,
    check: usize,
    name: usize,
    transcribe: usize,
    join: usize,
    speak_level: usize,
    book_add: usize,
    book_find: usize,
}

impl Deepest {
    /// Calls all functions that take a message or a text on this one, with this list of cuts and an
    /// output of this length.
    fn measure(&mut self, stack: &mut Stack, msg: &[u8], cuts: &[usize], cap: usize) {
        self.measure_edit(stack, msg, cap);
        self.measure_read(stack, msg, cap);
        let mut out = vec![0; cap];
        let (msg, len) = (msg.as_ptr() as usize, msg.len());
        let (cuts, n) = (cuts.as_ptr() as usize, cuts.len());
        let out = out.as_mut_ptr() as usize;
        let mut deepest = |seen: &mut usize, function: *const (), arguments: &[usize]| {
            let (number, touched) = stack.call(function, arguments);
            *seen = touched.max(*seen);
            number
        };
        let writes = [msg, len, out, cap];
        let number = deepest(&mut self.check, raw::govorun_check as _, &[msg, len]);
        let mut others = vec![
            deepest(&mut self.write_utf8, raw::govorun_write_utf8 as _, &writes),
            deepest(&mut self.name, raw::govorun_name as _, &writes),
        ];
        for edition in EDITIONS {
            let newer = usize::from(newer(edition)) | UPPER;
            let tapes = [newer, msg, len, out, cap];
            let joins = [newer, msg, len, cuts, n, out, cap];
            others.extend([
                deepest(&mut self.transcribe, raw::govorun_transcribe as _, &tapes),
                deepest(&mut self.join, raw::govorun_join as _, &joins),
            ]);
        }
        // A call that went wrong would measure nothing.
        let may_be_short = cap < 2 * len;
        let right = |&other: &u32| other == number || (number == 0 && may_be_short && other == 11);
        assert!(others.iter().all(right), "{number} {others:?}");
    }

    fn measure_edit(&mut self, stack: &mut Stack, text: &[u8], cap: usize) {
        let (number, touched) = call_on_text(stack, raw::govorun_edit as _, text, cap);
        self.edit = touched.max(self.edit);
        assert!(number == 0 || (cap < text.len() && number == 11));
    }

    /// Calls the reader, and gives the number of its answer.
    fn measure_read(&mut self, stack: &mut Stack, text: &[u8], cap: usize) -> u32 {
        let (number, touched) = call_on_text(stack, raw::govorun_read_utf8 as _, text, cap);
        self.read_utf8 = touched.max(self.read_utf8);
        assert!([0, 13].contains(&number) || (cap < text.len() && number == 11));
        number
    }

    /// Calls the speaker of levels. The level takes the lower half of its register, and nothing is
    /// said of what the upper half holds.
    fn measure_level(&mut self, stack: &mut Stack, level: i32, upper: u32, cap: usize) {
        let mut out = vec![0; cap];
        let register = (upper as usize) << 32 | level as u32 as usize;
        let arguments = [register, out.as_mut_ptr() as usize, cap];
        let (number, touched) = stack.call(raw::govorun_speak_level as _, &arguments);
        self.speak_level = touched.max(self.speak_level);
        match speak_level(level, cap) {
            Ok(words) => assert!(number == 0 && out.starts_with(&words), "{level}"),
            Err(refusal) => assert_eq!(number, refusal.number.into(), "{level}"),
        }
    }

    /// Calls lookup and addition, which in both editions.
    fn measure_book(
        &mut self,
        stack: &mut Stack,
        lent: Lent,
        listener: u32,
        phrase: u16,
        msg: &[u8],
    ) {
        self.measure_find(stack, lent, listener, phrase);
        for edition in EDITIONS {
            self.measure_add(stack, lent, listener, edition, phrase, msg);
        }
    }

    /// Calls the lookup. The place for its answer is the first argument, as for a text.
    fn measure_find(&mut self, stack: &mut Stack, lent: Lent, listener: u32, phrase: u16) {
        let mut found = Found::from(Err(NO_ANSWER));
        let arguments = [
            &raw mut found as usize,
            listener as usize | UPPER,
            lent.buffer.as_ptr() as usize,
            lent.buffer.len(),
            lent.used,
            usize::from(phrase) | UPPER,
        ];
        let (_, touched) = stack.call(raw::govorun_book_find as _, &arguments);
        self.book_find = touched.max(self.book_find);
        let by = Listener::of(listener);
        let expected = book::find(by, lent.buffer, lent.used, phrase);
        assert_eq!(found, expected.into());
    }

    /// Calls the addition. The place for its answer is the first argument, too.
    fn measure_add(
        &mut self,
        stack: &mut Stack,
        lent: Lent,
        listener: u32,
        edition: Edition,
        phrase: u16,
        msg: &[u8],
    ) {
        const SET: u8 = 0b1010_0101;
        let mut buffer = lent.buffer.to_vec();
        let mut added = Added::from(Err(NO_ANSWER));
        let arguments = [
            &raw mut added as usize,
            listener as usize | UPPER,
            usize::from(newer(edition)) | UPPER,
            buffer.as_mut_ptr() as usize,
            buffer.len(),
            lent.used,
            usize::from(phrase) | UPPER,
            usize::from(SET) | UPPER,
            msg.as_ptr() as usize,
            msg.len(),
        ];
        let (_, touched) = stack.call(raw::govorun_book_add as _, &arguments);
        self.book_add = touched.max(self.book_add);
        let (by, used) = (Listener::of(listener), lent.used);
        let mut after = lent.buffer.to_vec();
        let expected = book::add(by, edition, &mut after, used, phrase, SET, msg);
        assert_eq!(added, expected.into());
        assert_eq!(buffer, after);
    }

    fn at_most(&self, bound: usize) {
        println!("bytes of stack: {self:?}");
        let messages = [self.check, self.name, self.transcribe, self.join];
        let texts = [self.edit, self.read_utf8, self.write_utf8];
        let others = [self.speak_level, self.book_add, self.book_find];
        for used in messages.into_iter().chain(texts).chain(others) {
            assert!(used <= bound, "{used} bytes of stack, over {bound}");
        }
    }
}

/// Calls editor or reader. Their answer does not fit two registers, so the place for it is an
/// argument, and the first. Gives its number and how many bytes of stack the call touched.
fn call_on_text(stack: &mut Stack, function: *const (), text: &[u8], cap: usize) -> (u32, usize) {
    let mut out = vec![0; cap];
    let mut answer = Text {
        number: u32::MAX,
        place: 0,
        length: 0,
    };
    let (text, len) = (text.as_ptr() as usize, text.len());
    let (at, out) = (&raw mut answer as usize, out.as_mut_ptr() as usize);
    let (_, touched) = stack.call(function, &[at, text, len, out, cap]);
    (answer.number, touched)
}

#[test]
fn longest_messages() {
    let mut rng = Rng::for_test(70);
    let mut stack = Stack::new(&mut rng);
    let mut deepest = Deepest::default();
    for msg in extreme_messages(&mut rng, 50) {
        assert!(check(&msg).is_ok());
        for cuts in [breaks(&msg), Vec::new()] {
            for cap in [2 * msg.len(), 0] {
                deepest.measure(&mut stack, &msg, &cuts, cap);
            }
        }
    }
    deepest.at_most(bound());
}

#[test]
fn refused_messages() {
    let mut rng = Rng::for_test(71);
    let mut stack = Stack::new(&mut rng);
    let mut deepest = Deepest::default();
    for number in 1..=10 {
        for spot in SPOTS {
            for _ in 0..20 {
                let (msg, _) = damaged(&mut rng, number, spot);
                deepest.measure(&mut stack, &msg, &[], 2 * msg.len());
            }
        }
    }
    deepest.at_most(bound());
}

#[test]
fn texts_with_punctuation() {
    let mut rng = Rng::for_test(72);
    let mut stack = Stack::new(&mut rng);
    let mut deepest = Deepest::default();
    for msg in extreme_messages(&mut rng, 50) {
        let text = punctuated(&mut rng, &msg, 5);
        for cap in [text.len(), 0] {
            deepest.measure(&mut stack, &text, &[], cap);
        }
    }
    deepest.at_most(bound());
}

/// Long texts, whole and with a wrong sequence at their end.
#[test]
fn texts_in_utf_8() {
    let mut rng = Rng::for_test(73);
    let mut stack = Stack::new(&mut rng);
    let mut deepest = Deepest::default();
    for msg in extreme_messages(&mut rng, 50) {
        let text = written(&punctuated(&mut rng, &msg, 3));
        assert_eq!(deepest.measure_read(&mut stack, &text, text.len()), 0);
        assert_eq!(deepest.measure_read(&mut stack, &text, 0), 11);
    }
    for sequence in untaken() {
        let text = [taken(&mut rng, 5000).as_bytes(), &sequence].concat();
        for cap in [text.len(), 0] {
            assert_eq!(deepest.measure_read(&mut stack, &text, cap), 13);
        }
    }
    deepest.at_most(bound());
}

/// Levels of every kind and numbers outside the range.
#[test]
fn levels() {
    let mut rng = Rng::for_test(74);
    let mut stack = Stack::new(&mut rng);
    let mut deepest = Deepest::default();
    let close = (-10_100..=10_100).step_by(13);
    for level in close.chain([-4_989, 0, 9_999, i32::MIN, i32::MAX]) {
        for upper in [0, u32::MAX, rng.bits() as u32] {
            deepest.measure_level(&mut stack, level, upper, LONGEST);
            deepest.measure_level(&mut stack, level, upper, 0);
        }
    }
    deepest.at_most(bound());
}

/// The longest messages and refused ones, added to an empty book and to others, sound and damaged,
/// with room and without.
#[test]
fn books() {
    let mut rng = Rng::for_test(75);
    let mut stack = Stack::new(&mut rng);
    let mut deepest = Deepest::default();
    let mut messages = extreme_messages(&mut rng, 20);
    messages.extend((1..=10).map(|number| damaged(&mut rng, number, SPOTS[1]).0));
    for msg in messages {
        let mut muddled = laid(&phrases(&mut rng, 50));
        muddle(&mut rng, &mut muddled);
        for book in [Vec::new(), laid(&phrases(&mut rng, 50)), muddled] {
            for free in [2 * 4096 + HEAD, 0] {
                let buffer = [&book[..], &vec![0; free]].concat();
                let lent = Lent::new(&buffer, book.len());
                for (listener, phrase) in [(DISPATCH, u16::MAX), (DISPATCH, 300), (PUMP, 1)] {
                    deepest.measure_book(&mut stack, lent, listener, phrase, &msg);
                }
            }
        }
    }
    deepest.at_most(bound());
}

/// As many records as there are numbers take no more stack than a few.
#[test]
fn a_book_of_all_numbers() {
    let mut rng = Rng::for_test(76);
    let mut stack = Stack::new(&mut rng);
    let mut deepest = Deepest::default();
    let phrase = |number: u16| Phrase::new(number, number as u8, &[7]);
    let all: Vec<_> = (0..u16::MAX).map(phrase).collect();
    let book = laid(&all);
    let buffer = [&book[..], &[0; HEAD + 1]].concat();
    let lent = Lent::new(&buffer, book.len());
    for phrase in [0, 65_534, 65_535] {
        for listener in [DISPATCH, ROAD, DISPATCH + (1 << 16)] {
            deepest.measure_book(&mut stack, lent, listener, phrase, b"\xE0");
        }
    }
    deepest.at_most(bound());
}
