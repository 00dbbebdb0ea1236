//! An input that a program can't read to its end: nothing is spoken of it, and standard error says
//! so. So it does where the output can't be written. An input without end is too long.

use std::fs::File;
use std::io::{ErrorKind, Write};
use std::process::{Command, Stdio};
use std::thread::sleep;
use std::time::Duration;

use govorun_tests::answers::MAX_INPUT;
use govorun_tests::cp1251;
use govorun_tests::input::{directory, impatient};
use govorun_tests::program::{written, Program, Written, GAUGE, GOVORUN, NO_NUMBER, SPEAK};

const PROGRAMS: [Program; 3] = [GOVORUN, SPEAK, GAUGE];

/// The programs, each with what it is handed: a text, or a number.
fn with_input(text: &str, number: &str) -> [(Program, Vec<u8>); 3] {
    [
        (GOVORUN, cp1251(text)),
        (SPEAK, text.into()),
        (GAUGE, number.into()),
    ]
}

/// What is written where the input can't be read.
fn unread(program: Program) -> Written {
    let complaint = format!("{}: standard input could not be read\n", program.name);
    (String::new(), complaint)
}

/// A program may wait for the rest of the message or give up, but part of it is no message, nor are
/// some digits of a number that number.
#[test]
fn an_input_that_does_not_wait() {
    for (program, msg) in with_input("ду*б го*л", "-4989") {
        let (first, second) = msg.split_at(msg.len() / 2);
        let (input, mut end) = impatient(first);
        let child = program.start(input);
        sleep(Duration::from_millis(200));
        if let Err(error) = end.write_all(second) {
            assert_eq!(error.kind(), ErrorKind::BrokenPipe);
        }
        drop(end);
        let whole = (program.expected)(&msg);
        let given = written(child);
        assert!(given == unread(program) || given == whole, "{given:?}");
    }
}

#[test]
fn a_directory() {
    for program in PROGRAMS {
        assert_eq!(written(program.start(directory())), unread(program));
    }
}

#[test]
fn a_closed_input() {
    for program in PROGRAMS {
        let mut command = Command::new("sh");
        command.args(["-c", "exec \"$0\" <&-"]).arg(program.path());
        command.stdout(Stdio::piped()).stderr(Stdio::piped());
        let child = command.spawn().expect("sh starts");
        assert_eq!(written(child), unread(program));
    }
}

/// No program waits for the end of what is too long.
#[test]
fn an_input_without_end() {
    for program in PROGRAMS {
        let endless = File::open("/dev/zero").expect("a device that never ends");
        let mut command = Command::new("timeout");
        command.arg("20").arg(program.path()).stdin(endless);
        command.stdout(Stdio::piped()).stderr(Stdio::piped());
        let child = command.spawn().expect("timeout is installed");
        let too_long = [0; MAX_INPUT + 1];
        assert_eq!(written(child), (program.expected)(&too_long));
    }
}

/// What a program complains of on this input where nothing can be written to its output.
fn with_full_output(program: Program, msg: &[u8]) -> String {
    let full = File::create("/dev/full").expect("a device that is always full");
    let mut command = Command::new(program.path());
    command.stdin(Stdio::piped()).stderr(Stdio::piped());
    let mut child = command.stdout(full).spawn().expect("the program starts");
    let mut input = child.stdin.take().expect("a pipe was asked for");
    input.write_all(msg).expect("a short message");
    drop(input);
    let (_, complaint) = written(child);
    complaint
}

#[test]
fn an_output_that_is_full() {
    for (text, number) in [("ду*б", "-4989"), ("а7", "10000")] {
        for (program, msg) in with_input(text, number) {
            let complaint = format!("{}: standard output could not be written\n", program.name);
            assert_eq!(with_full_output(program, &msg), complaint);
        }
    }
}

#[test]
fn what_is_no_number_needs_no_output() {
    assert_eq!(with_full_output(GAUGE, b"12x"), NO_NUMBER);
}

#[test]
fn a_good_run_has_no_complaint() {
    for (text, number) in [("ду*б го*л", "-4989"), ("а7", "10000"), ("", "0")] {
        for (program, msg) in with_input(text, number) {
            let (input, end) = impatient(&msg);
            drop(end);
            let expected = (program.expected)(&msg);
            assert_eq!(expected.1, "");
            assert_eq!(written(program.start(input)), expected);
        }
    }
}
