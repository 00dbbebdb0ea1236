//! The phrase book in C: it builds without a warning, tapes each line of its file that is a phrase
//! for some listeners and tells of those that are none, plays the phrase that is asked for to who may
//! hear it and refuses it to others as if it were not there, and touches no memory that is not its
//! own.

use std::collections::BTreeMap;
use std::ffi::OsStr;
use std::fs;
use std::os::unix::ffi::OsStrExt;
use std::path::{Path, PathBuf};
use std::process::Command;
use std::sync::atomic::{AtomicUsize, Ordering};
use std::sync::OnceLock;

use govorun_tests::answers::print_of;
use govorun_tests::editing::edited;
use govorun_tests::example::{build, file, under_valgrind, SET_UP};
use govorun_tests::gen::damaged::SPOTS;
use govorun_tests::gen::noise::bytes;
use govorun_tests::gen::utf8::untaken;
use govorun_tests::gen::{damaged, message, message_of_any_length, punctuated, Rng};
use govorun_tests::utf8::{read, written};
use govorun_tests::{tape, Edition, Refusal};

const USAGE: &str = "usage: phrasebook PHRASES LISTENER NUMBER\n";

/// Who may be asked for and who may stand in a line.
const LISTENERS: [&str; 3] = ["pump", "road", "dispatch"];

/// What is said of a phrase that is not there, and of one that is not for the listener.
const REFUSED: &str = "phrasebook: refused 17 at 0\n";

/// How many bytes of a record stand before its tape.
const HEAD: usize = 7;

/// The program, built once for all tests here.
fn phrasebook() -> &'static Path {
    static PHRASEBOOK: OnceLock<PathBuf> = OnceLock::new();
    PHRASEBOOK.get_or_init(|| build("phrasebook", env!("CARGO_TARGET_TMPDIR")))
}

/// What the program leaves: standard output, standard error and status.
#[derive(Debug, PartialEq)]
struct Left {
    print: String,
    complaints: String,
    status: Option<i32>,
}

impl Left {
    fn new(print: &str, complaints: &str, status: i32) -> Self {
        Left {
            print: print.to_string(),
            complaints: complaints.to_string(),
            status: Some(status),
        }
    }

    fn by(command: &mut Command) -> Self {
        let output = command.output();
        let output = output.unwrap_or_else(|error| panic!("{command:?}: {error}; {SET_UP}"));
        let text = |bytes: Vec<u8>| String::from_utf8_lossy(&bytes).into_owned();
        Left {
            print: text(output.stdout),
            complaints: text(output.stderr),
            status: output.status.code(),
        }
    }
}

/// A file with some bytes, as long as it is needed.
struct Phrases(PathBuf);

impl Phrases {
    fn new(content: impl AsRef<[u8]>) -> Self {
        static COUNT: AtomicUsize = AtomicUsize::new(0);
        let name = format!("phrases-{}", COUNT.fetch_add(1, Ordering::Relaxed));
        let path = Path::new(env!("CARGO_TARGET_TMPDIR")).join(name);
        fs::write(&path, content).expect("a file is written");
        Phrases(path)
    }
}

impl Drop for Phrases {
    fn drop(&mut self) {
        fs::remove_file(&self.0).expect("the file is still there");
    }
}

/// What the program leaves for a file of these bytes, and for this listener and number as they are
/// given.
fn run(content: impl AsRef<[u8]>, listener: impl AsRef<OsStr>, number: impl AsRef<OsStr>) -> Left {
    let file = Phrases::new(content);
    let mut command = Command::new(phrasebook());
    Left::by(command.arg(&file.0).arg(listener).arg(number))
}

/// A number from 0 to 65,535 that is written in digits alone.
fn number(digits: &[u8]) -> Option<u16> {
    let are_digits = digits.iter().all(u8::is_ascii_digit);
    let text = std::str::from_utf8(digits).ok();
    text.filter(|_| are_digits)?.parse().ok()
}

/// What a line says.
struct Said<'a> {
    number: u16,
    listeners: Vec<&'a [u8]>,
    phrase: &'a [u8],
}

impl Said<'_> {
    fn is_for(&self, listener: &str) -> bool {
        self.listeners.contains(&listener.as_bytes())
    }
}

/// What stands before the first gap, and what behind it.
fn at_gap(text: &[u8]) -> Option<(&[u8], &[u8])> {
    let gap = text.iter().position(|&byte| byte == b' ')?;
    Some((&text[..gap], &text[gap + 1..]))
}

/// The parts of a line, or what it lacks.
fn parts(line: &[u8]) -> Result<Said<'_>, &'static str> {
    let numbered = at_gap(line).and_then(|(digits, rest)| Some((number(digits)?, rest)));
    let (number, rest) = numbered.ok_or("no number")?;
    let (names, phrase) = at_gap(rest).ok_or("no listeners")?;
    let listeners: Vec<&[u8]> = names.split(|&byte| byte == b',').collect();
    let is_listener = |name: &&[u8]| LISTENERS.map(str::as_bytes).contains(name);
    if !listeners.iter().all(is_listener) {
        return Err("no listeners");
    }
    Ok(Said {
        number,
        listeners,
        phrase,
    })
}

/// The lines of a file, without the newlines that end them.
fn lines(content: &[u8]) -> Vec<&[u8]> {
    let lines = content.split_inclusive(|&byte| byte == b'\n');
    lines
        .map(|line| line.strip_suffix(b"\n").unwrap_or(line))
        .collect()
}

/// The lines that are in a book, each with its tape, and the bytes that it takes.
#[derive(Default)]
struct Book<'a> {
    phrases: BTreeMap<u16, (Said<'a>, Vec<u8>)>,
    used: usize,
}

impl<'a> Book<'a> {
    fn add(&mut self, line: Said<'a>) -> Result<(), Refusal> {
        let tape = tape(Edition::One, &edited(&read(line.phrase)?), usize::MAX)?;
        let last = self.phrases.keys().next_back();
        if last.is_some_and(|&last| last >= line.number) {
            return Err(Refusal::new(16, self.used));
        }
        self.used += HEAD + tape.len();
        self.phrases.insert(line.number, (line, tape));
        Ok(())
    }

    fn find(&self, listener: &str, number: u16) -> Option<Vec<u8>> {
        let (line, tape) = self.phrases.get(&number)?;
        line.is_for(listener).then(|| tape.clone())
    }
}

/// What must be left for a file of these bytes.
fn expected(content: &[u8], listener: &str, wanted: u16) -> Left {
    let mut book = Book::default();
    let mut complaints = String::new();
    for (index, line) in (1..).zip(lines(content)) {
        let complaint = match parts(line).map(|line| book.add(line)) {
            Ok(Ok(())) => continue,
            Ok(Err(refusal)) => format!("refused {} at {}", refusal.number, refusal.place),
            Err(missing) => missing.to_string(),
        };
        complaints += &format!("phrasebook: line {index}: {complaint}\n");
    }
    match book.find(listener, wanted) {
        Some(tape) => {
            let status = i32::from(!complaints.is_empty());
            Left::new(&print_of(Ok(tape)), &complaints, status)
        }
        None => Left::new("", &(complaints + REFUSED), 1),
    }
}

/// What the program leaves must be what is expected.
fn runs_as_expected(content: &[u8], listener: &str, wanted: u16) {
    let given = run(content, listener, wanted.to_string());
    let expected = expected(content, listener, wanted);
    let content = String::from_utf8_lossy(content);
    assert_eq!(given, expected, "{listener} {wanted} in\n{content}");
}

fn thirty() -> Vec<u8> {
    fs::read(file("phrases.txt")).expect("examples/phrases.txt")
}

/// The lines of a file that has no others.
fn phrases(content: &[u8]) -> Vec<Said<'_>> {
    let phrases = lines(content).into_iter().map(parts);
    phrases
        .collect::<Result<_, _>>()
        .expect("numbers and listeners")
}

/// Each of the thirty is accepted and is heard by its listeners alone, and all have numbers and tapes
/// of their own.
#[test]
fn thirty_phrases() {
    let content = thirty();
    let phrases = phrases(&content);
    assert_eq!(phrases.len(), 30);
    let mut prints = Vec::new();
    for phrase in &phrases {
        for listener in LISTENERS {
            let left = run(&content, listener, phrase.number.to_string());
            let expected = expected(&content, listener, phrase.number);
            assert_eq!(left, expected, "{listener} {}", phrase.number);
            if phrase.is_for(listener) {
                assert_eq!((left.status, &left.complaints[..]), (Some(0), ""));
                prints.push(left.print);
            } else {
                assert_eq!(left, Left::new("", REFUSED, 1));
            }
        }
    }
    prints.sort();
    prints.dedup();
    assert_eq!(prints.len(), 30);
}

/// Some of the thirty are for all, some for each listener alone, and some for dispatch and one kind
/// of crew.
#[test]
fn listeners_of_the_thirty() {
    let content = thirty();
    let phrases = phrases(&content);
    for listeners in [
        &["pump", "road", "dispatch"][..],
        &["pump"],
        &["road"],
        &["dispatch"],
        &["pump", "dispatch"],
        &["road", "dispatch"],
    ] {
        let names: Vec<&[u8]> = listeners.iter().map(|name| name.as_bytes()).collect();
        let has_these = |phrase: &Said| phrase.listeners == names;
        assert!(phrases.iter().any(has_these), "{listeners:?}");
    }
}

#[test]
fn numbers_that_the_thirty_do_not_have() {
    let content = thirty();
    let phrases = phrases(&content);
    let others = [0, 255, 256, 9_999, 65_534, 65_535];
    let is_other = |&number: &u16| phrases.iter().all(|phrase| phrase.number != number);
    let others: Vec<u16> = others.into_iter().filter(is_other).collect();
    assert!(others.len() >= 3);
    for number in others {
        for listener in LISTENERS {
            let left = run(&content, listener, number.to_string());
            assert_eq!(left, Left::new("", REFUSED, 1), "{listener} {number}");
        }
    }
}

#[test]
fn phrases_and_refusals() {
    let two = "5 pump \"Ду*б\", - ра*д!\n9 road,pump а\n";
    for (listener, number, print) in [
        ("pump", "5", "24 6 39 63 41 1 45\n"),
        ("pump", "9", "7\n"),
        ("road", "9", "7\n"),
    ] {
        assert_eq!(run(two, listener, number), Left::new(print, "", 0));
    }
    for (listener, number) in [("road", "5"), ("dispatch", "9"), ("pump", "6")] {
        assert_eq!(run(two, listener, number), Left::new("", REFUSED, 1));
    }
    // The last line needs no newline.
    let open = "5 road а\n9 road ду*б";
    assert_eq!(run(open, "road", "9"), Left::new("24 6 39\n", "", 0));
}

/// The book goes on behind a line that is refused or has no number or listeners.
#[test]
fn phrases_and_complaints() {
    let content = "5 pump а\n5 pump и\n\n6 pump а7\nа\n7 pump б*\n7 crew а\n\
                   8 road ду*б\n3 road а\n";
    let complaints = "phrasebook: line 2: refused 16 at 8\nphrasebook: line 3: no number\n\
                      phrasebook: line 4: refused 13 at 2\nphrasebook: line 5: no number\n\
                      phrasebook: line 6: refused 5 at 1\nphrasebook: line 7: no listeners\n\
                      phrasebook: line 9: refused 16 at 18\n";
    let refused = format!("{complaints}{REFUSED}");
    for (listener, number, print) in [("road", "8", "24 6 39\n"), ("pump", "5", "7\n")] {
        let left = run(content, listener, number);
        assert_eq!(left, Left::new(print, complaints, 1));
    }
    for (listener, number) in [("pump", "6"), ("pump", "7"), ("pump", "8"), ("road", "5")] {
        let left = run(content, listener, number);
        assert_eq!(left, Left::new("", &refused, 1));
    }
}

/// Of the same book the same is left, byte for byte, for a phrase that is not there and for one that
/// is not for the listener; and so whether or not another line is wrong.
#[test]
fn not_for_him_is_as_if_not_there() {
    for more in ["", "а\n", "9 crew а\n"] {
        for listener in LISTENERS {
            let others: Vec<&str> = LISTENERS.into_iter().filter(|&l| l != listener).collect();
            let content = format!("4 {listener} и\n5 {} ду*б\n{more}", others.join(","));
            let heard = run(&content, listener, "4");
            assert_eq!(heard.print, "10\n");
            let not_for_him = run(&content, listener, "5");
            assert_eq!((&not_for_him.print[..], not_for_him.status), ("", Some(1)));
            assert!(not_for_him.complaints.ends_with(REFUSED));
            for number in ["3", "6", "0", "65535"] {
                assert_eq!(run(&content, listener, number), not_for_him, "{listener}");
            }
        }
    }
}

/// What a listener is answered does not tell which phrases for others are in the book.
#[test]
fn phrases_for_others_make_no_difference() {
    let mut rng = Rng::for_test(152);
    for _ in 0..20 {
        let content = good_file(&mut rng);
        let phrases = phrases(&content);
        for listener in LISTENERS {
            let mut his = lines(&content);
            his.retain(|line| parts(line).is_ok_and(|line| line.is_for(listener)));
            let his = his.join(&b'\n');
            for phrase in &phrases {
                let number = phrase.number.to_string();
                let left = run(&content, listener, &number);
                assert_eq!(run(&his, listener, &number), left, "{listener} {number}");
                assert_eq!(left.status == Some(0), phrase.is_for(listener));
            }
        }
    }
}

#[test]
fn a_file_without_phrases() {
    assert_eq!(run("", "dispatch", "0"), Left::new("", REFUSED, 1));
    let complaints = format!("phrasebook: line 1: no number\n{REFUSED}");
    let no_number = Left::new("", &complaints, 1);
    assert_eq!(run("\n", "dispatch", "0"), no_number);
    assert_eq!(run("phrases", "dispatch", "0"), no_number);
}

/// With a wrong second line, which is complained of so, the first line and the third are in the
/// book, and the second is not.
fn is_left_out(line: &str, complaint: &str) {
    let complaint = format!("phrasebook: line 2: {complaint}\n");
    let refused = format!("{complaint}{REFUSED}");
    let content = format!("4 pump ду*б\n{line}\n6 pump и*\n");
    let numbers = [
        ("4", "24 6 39\n", &complaint),
        ("5", "", &refused),
        ("6", "5\n", &complaint),
    ];
    for (number, print, complaints) in numbers {
        let left = run(&content, "pump", number);
        assert_eq!(left, Left::new(print, complaints, 1), "{line:?}");
    }
}

#[test]
fn lines_without_a_number() {
    let wrong = "| | 5 pump а|а|pump а|pump 5 а|5|5а|-5 pump а|+5 pump а|5. pump а|5,0 pump а|\
                 0x5 pump а|5\tpump а|٥ pump а|5\0 pump а|\x005 pump а|65536 pump а|65541 pump а|\
                 99999 pump а|4294967301 pump а|18446744073709551621 pump а|\
                 340282366920938463463374607431768211461 pump а";
    for line in wrong.split('|') {
        is_left_out(line, "no number");
    }
}

/// All that stands between the number and the next space must be names of listeners.
#[test]
fn lines_without_listeners() {
    let wrong = "|а|crew|all|-|*|0|1|7|pumps|pum|p|roads|dispatcher|dispatc|Pump|PUMP|насос|\
                 pump\t|pump\0|\0pump|pump\r|pump\u{a0}|pump.|pump:|\"pump\"|(pump)|\
                 ,|,pump|pump,|pump,,road|pump,road,|,pump,road|pump,crew|crew,pump|pump,Road|\
                 pump,road,dispatch,crew|pump;road|pump+road|pump/road|pumproad|roads,pump";
    for names in wrong.split('|') {
        is_left_out(&format!("5 {names} а"), "no listeners");
    }
    for line in [
        "5 ",
        "5  ",
        "5 а",
        "5 ду*б, а",
        "5 pump",
        "5 pump,road",
        "5 pump, road а",
        "5  pump а",
        "5 \tpump а",
        "5 pump\tа",
    ] {
        is_left_out(line, "no listeners");
    }
}

/// Behind its listeners a line may lack a phrase, or have one that begins like listeners.
#[test]
fn phrases_behind_listeners() {
    is_left_out("5 pump ", "refused 1 at 0");
    is_left_out("5 pump  ", "refused 1 at 0");
    is_left_out("5 pump road", "refused 13 at 0");
    is_left_out("5 pump ,road а", "refused 13 at 1");
    let content = "5 road , а\n6 road  , а";
    for number in ["5", "6"] {
        assert_eq!(run(content, "road", number), Left::new("7\n", "", 0));
    }
}

/// One name to three, in each order, also with one repeated.
#[test]
fn listeners_in_any_order() {
    let one = LISTENERS.map(|name| vec![name]);
    let longer = |list: &Vec<_>| LISTENERS.map(|name| [&list[..], &[name]].concat());
    let two: Vec<_> = one.iter().flat_map(longer).collect();
    let three: Vec<_> = two.iter().flat_map(longer).collect();
    for list in one.iter().chain(&two).chain(&three) {
        let content = format!("5 {} ду*б\n", list.join(","));
        for listener in LISTENERS {
            let left = if list.contains(&listener) {
                Left::new("24 6 39\n", "", 0)
            } else {
                Left::new("", REFUSED, 1)
            };
            assert_eq!(run(&content, listener, "5"), left, "{listener} {content}");
        }
    }
    let often = format!("5 {}road ду*б", "pump,".repeat(10_000));
    runs_as_expected(often.as_bytes(), "road", 5);
    runs_as_expected(often.as_bytes(), "dispatch", 5);
}

#[test]
fn zeros_before_a_number() {
    let zeros = "0".repeat(100);
    let content = format!("05 road а\n{zeros}7 road и\n");
    assert_eq!(run(&content, "road", "5"), Left::new("7\n", "", 0));
    assert_eq!(run(&content, "road", "7"), Left::new("10\n", "", 0));
}

#[test]
fn the_first_number_and_the_last() {
    let content = "0 pump а\n65534 pump и\n65535 pump у\n";
    assert_eq!(run(content, "pump", "0"), Left::new("7\n", "", 0));
    assert_eq!(run(content, "pump", "65534"), Left::new("10\n", "", 0));
    assert_eq!(run(content, "pump", "65535"), Left::new("11\n", "", 0));
    let more = "65535 pump у\n65535 pump у\n0 pump а\n";
    let complaints = "phrasebook: line 2: refused 16 at 8\nphrasebook: line 3: refused 16 at 8\n";
    assert_eq!(run(more, "pump", "65535"), Left::new("11\n", complaints, 1));
}

/// Those that the reader, the check and the book refuse, each at its place.
#[test]
fn refused_phrases() {
    for (phrase, number, place) in [
        ("", 1, 0),
        (" ", 1, 0),
        ("...", 1, 0),
        ("ду*б☃", 13, 7),
        ("а\0б", 13, 2),
        ("а\r", 13, 2),
        ("а, -ьа", 6, 2),
        ("бък", 8, 2),
        (&"а".repeat(65), 10, 64),
    ] {
        is_left_out(
            &format!("5 pump {phrase}"),
            &format!("refused {number} at {place}"),
        );
    }
}

/// Only what is left of a phrase after editing must not be too long.
#[test]
fn long_lines() {
    for count in [2_048, 2_049, 50_000] {
        let phrase = "а, ".repeat(count);
        let content = format!("5 road {phrase}\n7 road а\n");
        runs_as_expected(content.as_bytes(), "road", 5);
        runs_as_expected(content.as_bytes(), "road", 7);
    }
    let dashes = format!("5 road {}а", "-".repeat(1_000_000));
    assert_eq!(run(dashes, "road", "5"), Left::new("7\n", "", 0));
}

/// Some listeners as a line has them.
fn any_listeners(rng: &mut Rng) -> String {
    let count = rng.between(1, 3);
    let names: Vec<&str> = (0..count).map(|_| rng.pick(&LISTENERS)).collect();
    names.join(",")
}

/// A file of good lines with rising numbers.
fn good_file(rng: &mut Rng) -> Vec<u8> {
    let mut number = rng.pick(&[0, 250, 65_300]);
    let mut content = Vec::new();
    for _ in 0..rng.below(12) {
        number += rng.pick(&[1, 1, 2, 20]);
        let length = rng.between(1, 40);
        let phrase = message(rng, length);
        let line = format!("{number} {} ", any_listeners(rng));
        content.extend([line.as_bytes(), &written(&phrase), b"\n"].concat());
    }
    content
}

/// A line of a file: a number, mostly above the one before, listeners, mostly good ones, and a
/// phrase, mostly a good one, too; or bytes without a meaning.
fn any_line(rng: &mut Rng, last: &mut u16) -> Vec<u8> {
    if rng.one_in(3) {
        *last = last.saturating_add(rng.between(1, 300) as u16);
    } else if !rng.one_in(5) {
        *last = last.saturating_add(1);
    }
    let wrong = rng.pick(&["", "crew", "pump,", ",road", "road,crew"]);
    let listeners = if rng.one_in(20) {
        wrong.to_string()
    } else {
        any_listeners(rng)
    };
    let head = format!("{last} {listeners} ").into_bytes();
    let sequences = untaken();
    let damage = rng.between(1, 10) as u8;
    let phrase = match rng.below(12) {
        0 => damaged(rng, damage, SPOTS[1]).0,
        1 => return bytes(rng, 30),
        2 => {
            let wrong = &sequences[rng.below(sequences.len())];
            return [&head, "а".as_bytes(), wrong].concat();
        }
        3 => message_of_any_length(rng),
        _ => {
            let length = rng.between(1, 40);
            message(rng, length)
        }
    };
    [head, written(&punctuated(rng, &phrase, 3))].concat()
}

/// A file of so many such lines. A newline would make two of one.
fn any_file(rng: &mut Rng, count: usize) -> Vec<u8> {
    let mut last = rng.pick(&[0, 0, 100, 65_500]);
    let mut lines: Vec<Vec<u8>> = (0..count).map(|_| any_line(rng, &mut last)).collect();
    lines
        .iter_mut()
        .for_each(|line| line.retain(|&byte| byte != b'\n'));
    let mut content = lines.join(&b'\n');
    content.extend(rng.pick(&[&b""[..], b"\n"]));
    content
}

/// A number that stands in the file, or one beside it.
fn any_number(rng: &mut Rng, content: &[u8]) -> u16 {
    let lines = lines(content);
    let numbers: Vec<u16> = lines
        .iter()
        .filter_map(|line| Some(parts(line).ok()?.number))
        .collect();
    match numbers.len() {
        0 => 0,
        _ => rng.pick(&numbers).saturating_add(rng.pick(&[0, 0, 0, 1])),
    }
}

#[test]
fn files_of_any_lines() {
    let mut rng = Rng::for_test(150);
    for round in 0..150 {
        let count = if round % 30 == 0 { 3000 } else { rng.below(40) };
        let content = any_file(&mut rng, count);
        let wanted = any_number(&mut rng, &content);
        for listener in LISTENERS {
            runs_as_expected(&content, listener, wanted);
        }
    }
}

#[test]
fn numbers_are_asked_for_by_digits_alone() {
    let content = "0 road а\n5 road ду*б\n65535 road у\n";
    for number in ["5", "05", "00005"] {
        assert_eq!(run(content, "road", number), Left::new("24 6 39\n", "", 0));
    }
    let wrong = " |x|-0|-5|+5| 5|5 |5x|x5|5.|0x5|5\n|٥|65536|65541|99999|4294967301|\
                 18446744073709551621|340282366920938463463374607431768211461|";
    for number in wrong.split('|') {
        let left = run(content, "road", number);
        assert_eq!(left, Left::new("", USAGE, 1), "{number:?}");
    }
    let no_text = OsStr::from_bytes(b"5\xFF");
    assert_eq!(run(content, "road", no_text), Left::new("", USAGE, 1));
}

#[test]
fn one_listener_asks_by_name() {
    let content = "5 pump,road,dispatch ду*б\n";
    for listener in LISTENERS {
        assert_eq!(run(content, listener, "5"), Left::new("24 6 39\n", "", 0));
    }
    let wrong = "| |crew|all|-|0|1|2|3|5|pumps|pum|p|roads|dispatcher|dispatc|Pump|PUMP|насос|\
                 pump\n| pump|pump |pump,road|pump,|,pump|pump,pump|pump,road,dispatch";
    for listener in wrong.split('|') {
        let left = run(content, listener, "5");
        assert_eq!(left, Left::new("", USAGE, 1), "{listener:?}");
    }
    let no_text = OsStr::from_bytes(b"pump\xFF");
    assert_eq!(run(content, no_text, "5"), Left::new("", USAGE, 1));
}

#[test]
fn three_arguments_and_no_other_count() {
    let file = Phrases::new("5 pump а\n");
    let file = file.0.to_str().expect("a plain name");
    for arguments in [
        &[][..],
        &[file],
        &["5"],
        &[file, "pump"],
        &[file, "5"],
        &["pump", "5"],
        &[file, "5", "pump"],
        &["pump", file, "5"],
        &[file, file, "5"],
        &[file, "5", "5"],
        &[file, "pump", "5", "5"],
        &[file, "pump", "road", "5"],
        &[file, file, "pump", "5"],
    ] {
        let left = Left::by(Command::new(phrasebook()).args(arguments));
        assert_eq!(left, Left::new("", USAGE, 1), "{arguments:?}");
    }
}

#[test]
fn a_file_that_cannot_be_read() {
    for path in ["/", "/no/such/file", ""] {
        let left = Left::by(Command::new(phrasebook()).args([path, "pump", "5"]));
        let complaint = &left.complaints;
        assert_eq!((&left.print[..], left.status), ("", Some(1)), "{path}");
        let is_line = complaint.ends_with('\n') && complaint.lines().count() == 1;
        assert!(
            is_line && complaint.starts_with("phrasebook: "),
            "{complaint}"
        );
    }
}

/// Only a phrase that was printed is a good end.
#[test]
fn an_output_that_is_full() {
    let file = Phrases::new("5 pump а\n");
    let full = fs::File::create("/dev/full").expect("a device that is always full");
    let mut command = Command::new(phrasebook());
    let status = command
        .arg(&file.0)
        .args(["pump", "5"])
        .stdout(full)
        .status();
    assert_eq!(status.expect("the program starts").code(), Some(1));
}

/// A line without end fills any memory; a program that did not keep it would run into the other
/// limit, that of its seconds.
#[test]
fn without_memory() {
    let limited = "ulimit -v 20000 && ulimit -t 20 && exec \"$0\" /dev/zero pump 5";
    let left = Left::by(Command::new("sh").args(["-c", limited]).arg(phrasebook()));
    let complaint = "phrasebook: there is no memory left\n";
    assert_eq!(left, Left::new("", complaint, 1));
}

#[test]
fn under_memory_check() {
    let mut rng = Rng::for_test(151);
    let long = format!("5 road {}\n6 road а", "а, ".repeat(5000)).into_bytes();
    let heads = "5\n5 \n5 pump\n5 pump,\n5 pump, \n5 pump \n5 ,".into();
    let [few, many] = [60, 400].map(|count| any_file(&mut rng, count));
    for content in [thirty(), few, many, long, heads, Vec::new()] {
        let file = Phrases::new(&content);
        for wanted in [any_number(&mut rng, &content), u16::MAX] {
            let listener = rng.pick(&LISTENERS);
            let mut command = under_valgrind(phrasebook());
            command.arg(&file.0).args([listener, &wanted.to_string()]);
            let expected = expected(&content, listener, wanted);
            assert_eq!(Left::by(&mut command), expected, "{listener} {wanted}");
        }
    }
    for arguments in [
        &["/no/such/file", "pump", "5"][..],
        &["/", "pump", "5"],
        &["/", "crew", "5"],
        &["/", "", "5"],
        &["5"],
    ] {
        let left = Left::by(under_valgrind(phrasebook()).args(arguments));
        assert_eq!(left.status, Some(1), "{arguments:?}");
    }
}
