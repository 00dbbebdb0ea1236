//! A short run of the fuzzer's search for a difference between the library and the paper, and what
//! its inputs stand for. The environment variable GOVORUN_FUZZ_SECONDS makes the run longer.

use std::collections::BTreeSet;
use std::env;
use std::process::Command;

use govorun_tests::book::record;
use govorun_tests::fuzz::book::Asked;
use govorun_tests::fuzz::Input;
use govorun_tests::{cp1251, Edition};

#[test]
fn the_search_finds_no_difference() {
    let seconds = env::var("GOVORUN_FUZZ_SECONDS").unwrap_or_else(|_| "60".to_string());
    let mut command = Command::new(concat!(env!("CARGO_MANIFEST_DIR"), "/fuzz/run"));
    let output = command.arg(seconds).output().expect("the search starts");
    let printed = String::from_utf8_lossy(&output.stdout);
    let complaint = String::from_utf8_lossy(&output.stderr);
    assert!(output.status.success(), "{}\n{complaint}", output.status);
    println!("{}", printed.lines().last().expect("a report"));
}

/// The cuts of an input with this beginning and ten words of one letter.
fn made(beginning: &[u8]) -> Vec<usize> {
    let msg = cp1251("а б в г д е ж з и к");
    let data = [beginning, &msg].concat();
    let input = Input::of(&data);
    assert_eq!(input.msg, msg);
    input.cuts
}

#[test]
fn cuts_at_no_break_at_all_or_at_some() {
    assert_eq!(made(&[0, 0xFF]), []);
    assert_eq!(made(&[1, 0]), [1, 3, 5, 7, 9, 11, 13, 15, 17]);
    assert_eq!(made(&[2, 0b1000_0101]), [1, 5, 15, 17]);
}

#[test]
fn cuts_that_are_written_out() {
    assert_eq!(made(&[3, 1, 5, 0, 0]), [1, 17, 5]);
    assert_eq!(made(&[7, 0, 1, 0, 0, 0xFF, 0xFF, 0]), [1, usize::MAX]);
    assert_eq!(made(&[3, 0, 3, 0, 32]), [(1 << 32) + 3]);
}

/// By one bit, whatever the cuts are.
#[test]
fn editions_by_the_first_byte() {
    for how in 0..=u8::MAX {
        let data = [how, 0xFF, 0xE0];
        let edition = match how >> 4 & 1 {
            0 => Edition::One,
            _ => Edition::Two,
        };
        assert_eq!(Input::of(&data).edition, edition, "{how}");
    }
    assert_eq!(made(&[0x11, 0]), made(&[1, 0]));
    assert_eq!(made(&[0x13, 1, 5, 0, 0]), made(&[3, 1, 5, 0, 0]));
}

#[test]
fn levels_by_the_first_bytes() {
    let levels = |bytes: &[u8]| Input::of(&[b"\0\0", bytes].concat()).levels();
    assert_eq!(levels(&(-4_989_i32).to_le_bytes()), [-4_989; 2]);
    assert_eq!(levels(b"\x10\x27\0\0a"), [10_000; 2]);
    assert_eq!(levels(b"\x10\x27"), [10_000; 2]);
    assert_eq!(levels(b""), [0; 2]);
    assert_eq!(levels(&i32::MIN.to_le_bytes()), [i32::MIN, -1_448]);
    assert_eq!(levels(&20_205_i32.to_le_bytes()), [20_205, 5]);
}

#[test]
fn books_as_they_come() {
    let given = Asked::as_it_comes;
    let five = |listener, used| Asked {
        buffer: b"\x52\x9F\x05\x00\x00".to_vec(),
        used,
        listener,
        phrase: 0x0305,
        set: 0xF4,
        msg: b"msg".to_vec(),
    };
    let buffer_and_message = b"\x05\x00\x52\x9F\x05\x00\x00msg";
    let with = |listener, used: &[u8; 3]| {
        let head = [listener, 5, 3, 0xF4];
        given(&[&head, &used[..], buffer_and_message].concat())
    };
    assert_eq!(with(0, &[6, 0, 0]), five(0, 6));
    assert_eq!(with(2, &[0xFF, 0xFF, 0]), five(2, usize::MAX));
    assert_eq!(with(3, &[3, 0, 32]), five(3, (1 << 32) + 3));
    assert_eq!(with(4 * 8 + 2, &[6, 0, 0]), five(0x0102, 6));
    assert_eq!(with(4 * 16 + 1, &[6, 0, 0]), five(0x0001_0001, 6));
    assert_eq!(with(4 * 31, &[6, 0, 0]), five(1 << 31, 6));
    let longer = given(b"\x00\x00\x00\x00\x02\x00\x00\xFF\xFFabc");
    assert_eq!(
        (&longer.buffer[..], &longer.msg[..]),
        (&b"abc"[..], &b""[..])
    );
    assert_eq!(given(b"short"), given(&[0; 9]));
}

#[test]
fn books_of_phrases() {
    let two = [record(5, 7, &[7]), record(6, 0xF9, &[])].concat();
    let given = Asked::made(b"\x02\x03\x06\x02\x05\x07\x01\x07\x01\xF9\x00\xFF\x00\x00msg");
    let expected = Asked {
        buffer: [&two[..], b"\x52\x52"].concat(),
        used: 15,
        listener: 2,
        phrase: 9,
        set: 6,
        msg: b"msg".to_vec(),
    };
    assert_eq!(given, expected);
    let given = Asked::made(b"\x01\xFF\x00\x00\x05\x07\x01\x07\x01\xF9\x00\x01\x02");
    let expected = Asked {
        buffer: two,
        used: 15,
        listener: 1,
        phrase: 261,
        set: 0,
        msg: vec![1, 2],
    };
    assert_eq!(given, expected);
    let last = Asked::made(b"\x00\x01\x00\x00\xEF\x00\x00\xEF\x00\x00\xEF\x00\x00");
    assert_eq!(last.buffer[16..18], [0xFF; 2]);
    assert_eq!(last.phrase, 0);
    let roomy = Asked::made(b"\x00\x00\x00\xFF");
    assert_eq!((roomy.buffer, roomy.used), (vec![0x52; 10_240], 0));
    assert_eq!(Asked::made(b"\x01"), Asked::made(&[0; 4]));
}

/// Each kind of wrong phrase makes another book.
#[test]
fn books_with_a_wrong_phrase() {
    let made = |how| Asked::made(&[0, 0, 0, 0, how, 6, 2, 7, 8]).buffer;
    let sound = record(1, 6, &[7, 8]);
    assert_eq!(made(1), sound);
    let wrong: BTreeSet<Vec<u8>> = (0xF0..=0xFD).map(made).collect();
    assert_eq!(wrong.len(), 14);
    assert!(!wrong.contains(&sound));
}

#[test]
fn short_inputs() {
    let nothing = Input {
        edition: Edition::One,
        cuts: Vec::new(),
        msg: &[],
    };
    for data in [&[][..], &[3], &[1, 0], &[15, 0, 1, 0]] {
        assert_eq!(Input::of(data), nothing, "{data:?}");
    }
}
