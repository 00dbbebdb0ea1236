//! The daemon in C: it builds without a warning, speaks each line, a level or else a text that is
//! read and edited, in either edition, and answers as expected, and touches no memory that is not
//! its own.

use std::fs::File;
use std::io::{BufRead, BufReader, Write};
use std::path::{Path, PathBuf};
use std::process::{Command, Stdio};
use std::sync::OnceLock;

use govorun_tests::answers::print_of;
use govorun_tests::editing::edited;
use govorun_tests::example::{build, under_valgrind, SET_UP};
use govorun_tests::gen::damaged::{Spot, SPOTS};
use govorun_tests::gen::noise::{bytes, string};
use govorun_tests::gen::numbers::{level, outside, NO_NUMBERS};
use govorun_tests::gen::punctuated::BREAKS;
use govorun_tests::gen::utf8::{taken, untaken};
use govorun_tests::gen::{damaged, message, message_of_any_length, punctuated, Rng};
use govorun_tests::input::{directory, impatient};
use govorun_tests::spoken_levels::spoken_number;
use govorun_tests::utf8::{read, written};
use govorun_tests::{tape, write_utf8, Edition, Refusal, EDITIONS};

/// The daemon, built once for all tests here.
fn daemon() -> &'static Path {
    static DAEMON: OnceLock<PathBuf> = OnceLock::new();
    DAEMON.get_or_init(|| build("daemon", env!("CARGO_TARGET_TMPDIR")))
}

/// The command, which runs the daemon by itself or under another program, in an edition.
fn in_edition(mut command: Command, edition: Edition) -> Command {
    if edition == Edition::Two {
        command.arg("-2");
    }
    command
}

/// What a command prints for its input, and that it ends well.
fn output(command: &mut Command, input: &[u8]) -> String {
    let started = command.stdin(Stdio::piped()).stdout(Stdio::piped()).spawn();
    let mut child = started.unwrap_or_else(|error| panic!("{command:?}: {error}; {SET_UP}"));
    let mut pipe = child.stdin.take().expect("a pipe was asked for");
    let input = input.to_vec();
    let writer = std::thread::spawn(move || pipe.write_all(&input));
    let output = child.wait_with_output().expect("the daemon ends");
    assert!(output.status.success(), "{}", output.status);
    writer.join().expect("a writer").expect("all was read");
    String::from_utf8_lossy(&output.stdout).into_owned()
}

/// Lines of the daemon's input: texts with and without punctuation, and some that can't be read;
/// levels, other numbers, and texts that look like some.
fn lines() -> Vec<Vec<u8>> {
    let mut rng = Rng::for_test(60);
    let plain = "|ду*б ра*д|Ду*б Ра*д|са*д к до*му|Ёлка|а7|#|\0|а\r";
    let sentences = "Насо*сная, ста*нция.|\"Ду*б\" - (ра*д)?!|...| - |а, 7|-ьа";
    let texts = plain.split('|').chain(sentences.split('|'));
    let mut lines: Vec<Vec<u8>> = texts.map(Vec::from).collect();
    lines.extend(messages(&mut rng).iter().map(|msg| written(msg)));
    for sequence in untaken() {
        let [before, after] = [(); 2].map(|()| taken(&mut rng, 20));
        lines.push([before.as_bytes(), &sequence, after.as_bytes()].concat());
    }
    lines.push(bytes(&mut rng, 10_000));
    lines.extend((0..100).map(|_| level(&mut rng).into_bytes()));
    lines.extend(outside().into_iter().map(String::into_bytes));
    lines.extend(NO_NUMBERS.iter().map(|line| line.to_vec()));
    // A newline would make two lines of one.
    lines.retain(|line| !line.contains(&b'\n'));
    lines
}

/// Messages and texts that become some, accepted and refused.
fn messages(rng: &mut Rng) -> Vec<Vec<u8>> {
    let mut messages: Vec<Vec<u8>> = (0..40).map(|_| message_of_any_length(rng)).collect();
    for number in (1..=10).filter(|&number| number != 3) {
        messages.extend(SPOTS.map(|spot: Spot| damaged(rng, number, spot).0));
    }
    for length in [1, 30, 300, 4095, 4096, 4097, 4098, 20_000] {
        let msg = message(rng, length);
        messages.push(punctuated(rng, &msg, 9));
        messages.push(msg);
    }
    messages.push(string(rng, BREAKS, 10_000));
    messages
}

/// The message that a line becomes: the words of the level, if it is a number.
fn understood(line: &[u8]) -> Result<Vec<u8>, Refusal> {
    spoken_number(line).unwrap_or_else(|| read(line).map(|read| edited(&read)))
}

/// What the daemon must print for a line in an edition: the message as it was understood and its
/// codes, or a refusal.
fn expected(edition: Edition, line: &[u8]) -> String {
    let msg = understood(line);
    let shown = msg.clone().and_then(|msg| write_utf8(&msg, usize::MAX));
    let print = print_of(msg.and_then(|msg| tape(edition, &msg, usize::MAX)));
    match shown {
        Ok(shown) => format!("{}: {print}", String::from_utf8_lossy(&shown)),
        Err(_) => print,
    }
}

/// Hands the lines to the daemon, run so, in either edition and compares every line that it prints.
fn answers_as_expected(run: impl Fn() -> Command, lines: &[Vec<u8>]) {
    for edition in EDITIONS {
        answers_in(edition, &mut in_edition(run(), edition), lines);
    }
}

fn answers_in(edition: Edition, command: &mut Command, lines: &[Vec<u8>]) {
    let mut input = lines.join(&b'\n');
    input.push(b'\n');
    let printed = output(command, &input);
    assert_eq!(printed.lines().count(), lines.len());
    for (given, line) in printed.lines().zip(lines) {
        assert_eq!(given, expected(edition, line).trim_end());
    }
}

#[test]
fn daemon_answers_each_line() {
    let lines = lines();
    assert!(lines.len() >= 700);
    answers_as_expected(|| Command::new(daemon()), &lines);
}

#[test]
fn daemon_shows_what_it_understood() {
    let run = |line: &str| output(&mut Command::new(daemon()), line.as_bytes());
    let spoken = "Ду*б#ра*д: 24 6 39 63 41 1 45\n";
    assert_eq!(run("\"Ду*б\", - (ра*д)!"), spoken);
    assert_eq!(run("Ду*б#ра*д\n"), spoken);
    assert_eq!(run("ду*б☃"), "refused 13 at 7\n");
    assert_eq!(run("- а, б*"), "refused 5 at 3\n");
}

#[test]
fn daemon_speaks_in_the_edition_that_is_asked_for() {
    let run = |arguments: &[&str], line: &str| {
        output(Command::new(daemon()).args(arguments), line.as_bytes())
    };
    assert_eq!(
        run(&[], "Весна*, часы*"),
        "Весна*#часы*: 19 8 43 37 1 63 53 8 43 4\n"
    );
    let newer = "Весна*#часы*: 19 10 43 37 1 63 53 10 43 4\n";
    assert_eq!(run(&["-2"], "Весна*, часы*"), newer);
    assert_eq!(run(&[], "4"), "четы*ре: 53 8 45 4 42 13\n");
    assert_eq!(run(&["-2"], "4"), "четы*ре: 53 10 45 4 42 13\n");
}

#[test]
fn daemon_knows_no_other_arguments() {
    for arguments in [
        &[""][..],
        &["-1"],
        &["2"],
        &["-22"],
        &["-2", "-2"],
        &["-2", ""],
    ] {
        let mut command = Command::new(daemon());
        let (print, complaint) = failing(command.args(arguments), Stdio::null());
        assert_eq!(print, "");
        assert_eq!(complaint, "usage: daemon [-2]\n", "{arguments:?}");
    }
}

#[test]
fn daemon_speaks_levels() {
    let run = |line: &str| output(&mut Command::new(daemon()), line.as_bytes());
    assert_eq!(run("-1"), "ми*нус оди*н: 36 5 37 11 43 0 7 25 5 37\n");
    assert_eq!(run("40\n"), "со*рок: 43 2 41 12 31\n");
    for zero in ["0", "-0", "-00"] {
        assert_eq!(run(zero), "но*ль: 37 2 34\n");
    }
    let words = "ми*нус четы*ре ты*сячи девятьсо*т во*семьдесят де*вять: 36 ";
    assert!(run("-4989").starts_with(words));
    assert_eq!(run("10000"), "refused 14 at 0\n");
    assert_eq!(run("-4294967301"), "refused 14 at 0\n");
}

/// Texts, as before, in which no digit is taken.
#[test]
fn daemon_on_lines_that_are_almost_levels() {
    let run = |line: &str| output(&mut Command::new(daemon()), line.as_bytes());
    assert_eq!(run("-"), "refused 1 at 0\n");
    assert_eq!(run("--5"), "refused 13 at 2\n");
    assert_eq!(run("5-"), "refused 13 at 0\n");
    assert_eq!(run("- 5"), "refused 13 at 2\n");
    assert_eq!(run("5\r\n"), "refused 13 at 0\n");
    assert_eq!(run("+5"), "refused 13 at 0\n");
}

/// However many digits a number has.
#[test]
fn daemon_on_long_numbers() {
    let run = |line: String| output(&mut Command::new(daemon()), line.as_bytes());
    for length in [10, 4_095, 4_096, 4_097, 100_000] {
        assert_eq!(run("0".repeat(length) + "7"), "се*мь: 44 3 36\n");
        assert_eq!(run("9".repeat(length)), "refused 14 at 0\n");
        let almost = run("7".repeat(length) + "а");
        assert_eq!(almost, "refused 13 at 0\n");
    }
}

/// Only what is left of a line after editing must not be too long.
#[test]
fn daemon_on_long_lines() {
    let run = |line: String| output(&mut Command::new(daemon()), line.as_bytes());
    let shown = vec!["а"; 2048].join("#");
    let spoken = vec!["7"; 2048].join(" 63 ");
    assert_eq!(run("а, ".repeat(2048)), format!("{shown}: {spoken}\n"));
    assert_eq!(run("а, ".repeat(2049)), "refused 2 at 0\n");
    assert_eq!(run("-".repeat(100_000) + "а"), "а: 7\n");
    assert_eq!(run("а".repeat(100_000) + "7"), "refused 13 at 200000\n");
}

#[test]
fn daemon_at_the_end_of_its_input() {
    let run = |input: &[u8]| output(&mut Command::new(daemon()), input);
    assert_eq!(run(b""), "");
    assert_eq!(run(b"\n"), "refused 1 at 0\n");
    assert_eq!(run("а".as_bytes()), "а: 7\n");
    let three = "а: 7\nrefused 1 at 0\nи: 10\n";
    assert_eq!(run("а\n\nи".as_bytes()), three);
}

/// Whoever polls waits for the answer to a line before the next one is sent.
#[test]
fn daemon_answers_before_the_next_line() {
    let mut command = Command::new("timeout");
    command.arg("20").arg(daemon());
    let started = command.stdin(Stdio::piped()).stdout(Stdio::piped()).spawn();
    let mut child = started.expect("timeout is installed");
    let mut pipe = child.stdin.take().expect("a pipe was asked for");
    let mut answers = BufReader::new(child.stdout.take().expect("a pipe was asked for"));
    for (line, expected) in [
        ("а\n", "а: 7\n"),
        ("7\n", "се*мь: 44 3 36\n"),
        ("10000\n", "refused 14 at 0\n"),
        ("а7\n", "refused 13 at 2\n"),
    ] {
        pipe.write_all(line.as_bytes()).expect("the daemon reads");
        let mut answer = String::new();
        answers.read_line(&mut answer).expect("the daemon answers");
        assert_eq!(answer, expected);
    }
    drop(pipe);
    assert!(child.wait().expect("the daemon ends").success());
}

/// What a command prints and what it complains of before it fails.
fn failing(command: &mut Command, input: Stdio) -> (String, String) {
    let output = command.stdin(input).output().expect("the daemon starts");
    assert_eq!(output.status.code(), Some(1));
    let text = |bytes: Vec<u8>| String::from_utf8_lossy(&bytes).into_owned();
    (text(output.stdout), text(output.stderr))
}

/// What the daemon prints for an input that can't be read to its end. It must say so.
fn print_before_failing(input: Stdio) -> String {
    let (print, complaint) = failing(&mut Command::new(daemon()), input);
    assert_eq!(complaint, "daemon: standard input could not be read\n");
    print
}

#[test]
fn daemon_speaks_no_part_of_a_line() {
    let (input, _end) = impatient("ду*б\nго*л".as_bytes());
    assert_eq!(print_before_failing(input), "ду*б: 24 6 39\n");
    let (input, _end) = impatient("го*л".as_bytes());
    assert_eq!(print_before_failing(input), "");
    assert_eq!(print_before_failing(directory()), "");
}

/// A line without end fills any memory; a daemon that did not keep it would run into the other
/// limit, that of its seconds.
#[test]
fn daemon_without_memory() {
    let endless = File::open("/dev/zero").expect("a device that never ends");
    let limited = "ulimit -v 20000 && ulimit -t 20 && exec \"$0\"";
    let mut command = Command::new("sh");
    command.args(["-c", limited]).arg(daemon());
    let (print, complaint) = failing(&mut command, endless.into());
    assert_eq!(print, "");
    assert_eq!(complaint, "daemon: there is no memory left\n");
}

#[test]
fn daemon_under_valgrind() {
    answers_as_expected(|| under_valgrind(daemon()), &lines());
}
