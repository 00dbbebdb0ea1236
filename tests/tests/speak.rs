//! The script `speak`, on texts and on levels: the tape, its sounds or the refusal and nothing else
//! where all goes well, nothing spoken and a reason where it does not.

use std::collections::BTreeSet;
use std::env;
use std::ffi::OsStr;
use std::fs;
use std::os::unix::ffi::OsStrExt;
use std::os::unix::fs::PermissionsExt;
use std::path::{Path, PathBuf};
use std::process::Command;
use std::sync::OnceLock;

use govorun_tests::codes::{GAP, NAMES, PAUSE};
use govorun_tests::gen::lexicon;
use govorun_tests::program::{NO_NUMBER, TOO_LONG};
use govorun_tests::{cp1251, edit, expected_level, expected_speech, speak_level, tape, Edition};

/// The status, and what went to standard output and to standard error.
type Run = (Option<i32>, String, String);

fn run(command: &mut Command) -> Run {
    let output = command.output().expect("the script starts");
    let text = |bytes: Vec<u8>| String::from_utf8_lossy(&bytes).into_owned();
    let (print, complaint) = (text(output.stdout), text(output.stderr));
    (output.status.code(), print, complaint)
}

/// A good run that printed this and had no complaint.
fn good(print: impl Into<String>) -> Run {
    (Some(0), print.into(), String::new())
}

fn script() -> Command {
    Command::new(concat!(env!("CARGO_MANIFEST_DIR"), "/../speak"))
}

/// A folder with another `rt`, which keeps the crate and what it is asked beside itself, says these
/// lines, prints what a program would and ends so.
fn other_rt(name: &str, lines: &str, status: u8) -> PathBuf {
    let folder = Path::new(env!("CARGO_TARGET_TMPDIR")).join(name);
    fs::create_dir_all(&folder).expect("a folder for the other rt");
    let rt = folder.join("rt");
    let script = "#!/bin/sh\necho \"${PWD##*/}: $*\" >\"$0.asked\"\necho of the case";
    let script = format!("{script}\nprintf '{lines}' >&2\nexit {status}\n");
    fs::write(&rt, script).expect("the other rt");
    fs::set_permissions(&rt, fs::Permissions::from_mode(0o755)).expect("it may be run");
    folder
}

/// The script where `rt` is the one of this folder.
fn script_with(folder: &Path) -> Command {
    let rest = env::var_os("PATH").expect("there are other commands");
    let paths = [folder.to_path_buf()]
        .into_iter()
        .chain(env::split_paths(&rest));
    let mut script = script();
    script.env("PATH", env::join_paths(paths).expect("a list of folders"));
    script
}

/// The crate in whose folder `rt` is called by a run of the script with these arguments, and what it
/// is asked.
fn asked(arguments: &[&str]) -> String {
    let folder = other_rt("rt-that-is-asked", "rt: running\n", 0);
    run(script_with(&folder).args(arguments));
    fs::read_to_string(folder.join("rt.asked")).expect("it was asked")
}

/// Runs the script on a text with an `rt` that prints what the prover printed once and ends so.
fn speak_with_rt(name: &str, status: u8) -> Run {
    let lines = "rt: chose --jobs 2 for message\nfn message::check::check: proved\n\
                 statements std: modules loaded=5 checked=0\n\
                 crate message: modules loaded=36 checked=4\nlogic=proved functions=6\n\
                 fn speak::main: proved\nlibrary message: modules loaded=24 checked=0\n\
                 crate speak: modules loaded=0 checked=220\naxioms std: none reached\n\
                 logic=proved functions=7 axioms=8\nlinked files=out/speak.o\n\
                 rt: running out/speak\n";
    run(script_with(&other_rt(name, lines, status)).arg("ду*б ра*д"))
}

/// Runs the script with an `rt` that takes no time, since it has nothing to prove.
fn speak(arguments: impl IntoIterator<Item: AsRef<OsStr>>) -> Run {
    static FOLDER: OnceLock<PathBuf> = OnceLock::new();
    let folder = FOLDER.get_or_init(|| {
        let lines = "rt: nothing has changed since the last proved build\nrt: running\n";
        other_rt("rt-with-nothing-to-prove", lines, 0)
    });
    run(script_with(folder).args(arguments))
}

#[test]
fn later_runs_print_the_tape_alone() {
    run(script().arg("ду*б"));
    let again = run(script().arg("ду*б ра*д"));
    assert_eq!(again, good("24 6 39 0 41 1 45\n"));
}

#[test]
fn a_text_is_spoken() {
    let tape = good("24 6 39 0 41 1 45\n");
    assert_eq!(speak(["ду*б ра*д"]), tape);
    assert_eq!(speak(["ду*б", "ра*д"]), tape);
    assert_eq!(speak(["(Ду*б", "-", "ра*д)..."]), tape);
    let sentence = "Лесна*я, две*!";
    assert_eq!(
        speak([sentence]),
        good(expected_speech(sentence.as_bytes()).expect("a short text"))
    );
}

/// Letter for letter, whatever else a shell might make of it.
#[test]
fn no_text_means_anything_to_the_script() {
    for text in [
        "\\n", "$HOME", "%s", "*", "? !", "-n а", "-e", "`а`", "а\\", "  а  ", "-", "'\"",
    ] {
        assert_eq!(
            speak([text]),
            good(expected_speech(text.as_bytes()).expect("a short text")),
            "{text}"
        );
    }
}

#[test]
fn a_refusal_is_printed() {
    assert_eq!(speak(["ду*б☃"]), good("refused 13 at 7\n"));
    assert_eq!(speak(["ду*б\n"]), good("refused 13 at 7\n"));
    assert_eq!(speak(["- а, б*"]), good("refused 5 at 3\n"));
    assert_eq!(speak([""]), good("refused 1 at 0\n"));
    assert_eq!(speak([""; 0]), good("refused 1 at 0\n"));
    assert_eq!(speak([&"а".repeat(4_097)]), good("refused 2 at 0\n"));
    let malformed = OsStr::from_bytes(b"\xD0\xB4\xFF");
    assert_eq!(speak([malformed]), good("refused 13 at 2\n"));
}

/// Breaks do not count. A text of more bytes than the program takes is not spoken, and it says so.
#[test]
fn long_texts() {
    let longest = format!("а{}", "-".repeat(65_534));
    assert_eq!(speak([&longest]), good("7\n"));
    for longer in [&format!("{longest}-"), &"- ".repeat(35_000)] {
        for options in ["--", "-s"] {
            let (status, print, complaint) = speak([options, longer]);
            assert_ne!(status, Some(0));
            assert_eq!((&print[..], &complaint[..]), ("", TOO_LONG));
        }
    }
}

/// What is printed with -s for a text that is spoken.
fn sounds(text: &str) -> String {
    sounds_of(&edit(&cp1251(text), usize::MAX).expect("room enough"))
}

fn sounds_of(msg: &[u8]) -> String {
    let tape = tape(Edition::One, msg, usize::MAX).expect("an accepted message");
    let line = |&code: &u8| match code {
        GAP => "0 gap\n".to_string(),
        PAUSE => "63 pause\n".to_string(),
        _ => format!("{code} {}\n", NAMES[usize::from(code) - 1]),
    };
    tape.iter().map(line).collect()
}

#[test]
fn sounds_one_on_a_line() {
    let spoken = good("24 Д\n6 У*\n39 П\n0 gap\n41 Р\n1 А*\n45 Т\n");
    assert_eq!(speak(["-s", "ду*б ра*д"]), spoken);
    assert_eq!(speak(["-s", "ду*б", "ра*д"]), spoken);
    assert_eq!(speak(["-s", "а#и"]), good("7 А1\n63 pause\n10 И1\n"));
    assert_eq!(
        speak(["-s", "Лесна*я, две*!"]),
        good(sounds("Лесна*я#две*"))
    );
}

/// All words of the list, and some for the rarest sounds.
#[test]
fn every_sound_by_its_name() {
    let rare = "хьда*, по*мощь бо*гу, оте*ц да*л, но*чь бе*лая";
    let text = format!("{}, {rare}", lexicon::words().join(", "));
    let expected = sounds(&text);
    let named: BTreeSet<&str> = expected
        .lines()
        .filter_map(|line| line.split(' ').nth(1))
        .collect();
    let never = ["О", "Е"];
    for name in NAMES.iter().chain(&["gap", "pause"]) {
        assert_eq!(named.contains(name), !never.contains(name), "{name}");
    }
    assert_eq!(speak(["-s", &text]), good(expected));
}

#[test]
fn a_refusal_is_printed_in_the_place_of_sounds() {
    assert_eq!(speak(["-s", "ду*б☃"]), good("refused 13 at 7\n"));
    assert_eq!(speak(["-s", "ьа"]), good("refused 6 at 0\n"));
    assert_eq!(speak(["-s", ""]), good("refused 1 at 0\n"));
    assert_eq!(speak(["-s"]), good("refused 1 at 0\n"));
}

/// Only -s and -l themselves are options, and only before the text; -- ends the options.
#[test]
fn texts_that_look_like_options() {
    assert_eq!(speak(["--", "-s"]), good("refused 13 at 1\n"));
    assert_eq!(speak(["-s", "--", "-s"]), good("refused 13 at 1\n"));
    assert_eq!(speak(["--", "-а"]), good("7\n"));
    assert_eq!(speak(["-s", "--", "-а"]), good("7 А1\n"));
    assert_eq!(speak(["--", "--", "а"]), good("7\n"));
    assert_eq!(speak(["-а"]), good("7\n"));
    assert_eq!(speak(["а", "-s"]), good("refused 13 at 4\n"));
    assert_eq!(speak(["а", "-l"]), good("refused 13 at 4\n"));
    assert_eq!(speak(["--", "-l", "5"]), good("refused 13 at 1\n"));
    assert_eq!(speak(["-s", "--", "-l", "5"]), good("refused 13 at 1\n"));
    // Without -l a number is a text, and no digit is taken.
    assert_eq!(speak(["5"]), good("refused 13 at 0\n"));
    assert_eq!(speak(["-5"]), good("refused 13 at 1\n"));
}

/// What is printed for a level in decimal.
fn level(number: &str) -> Run {
    good(expected_level(number.as_bytes()).expect("a number"))
}

#[test]
fn a_level_is_spoken() {
    assert_eq!(speak(["-l", "0"]), good("37 2 34\n"));
    assert_eq!(speak(["-l", "-1"]), good("36 5 37 11 43 0 7 25 5 37\n"));
    for number in [
        "-4989", "9999", "-9999", "1000", "2", "-0", "0012", "-00300",
    ] {
        assert_eq!(speak(["-l", number]), level(number), "{number}");
        assert_eq!(speak(["-l", "--", number]), level(number), "{number}");
    }
    let zeros = "0".repeat(4_096);
    assert_eq!(speak(["-l", &zeros]), good("37 2 34\n"));
}

#[test]
fn sounds_of_a_level() {
    for options in ["-s -l", "-l -s", "-s -l --", "-l -s --"] {
        let spoken = |number: &str| speak(options.split(' ').chain([number]));
        assert_eq!(spoken("0"), good("37 Н\n2 О*\n34 Л'\n"));
        for level in [-4989, 5, 42, 1000] {
            let words = speak_level(level, usize::MAX).expect("a level within the range");
            assert_eq!(spoken(&level.to_string()), good(sounds_of(&words)));
        }
        assert_eq!(spoken("10000"), good("refused 14 at 0\n"));
    }
}

#[test]
fn a_level_outside_the_range_is_refused() {
    let far = "9".repeat(4_096);
    for number in [
        "10000",
        "-10000",
        "4294967301",
        "-18446744073709551621",
        &far,
    ] {
        assert_eq!(speak(["-l", number]), good("refused 14 at 0\n"), "{number}");
    }
}

/// Nothing is spoken, and the program says why.
#[test]
fn what_is_no_number_is_no_level() {
    let too_long = "0".repeat(4_097);
    let numbers = [
        "12x", "", "-", "--5", "5-", " 5", "5 ", "5\n", "+5", "−5", "два*", &too_long,
    ];
    let malformed = OsStr::from_bytes(b"5\xFF");
    for number in numbers.map(OsStr::new).into_iter().chain([malformed]) {
        for options in ["-l", "-l --", "-s -l", "-l -s"] {
            let options = options.split(' ').map(OsStr::new);
            let (status, print, complaint) = speak(options.chain([number]));
            assert_ne!(status, Some(0), "{number:?}");
            assert_eq!((&print[..], &complaint[..]), ("", NO_NUMBER), "{number:?}");
        }
    }
}

#[test]
fn the_program_that_is_needed_is_proved() {
    assert_eq!(asked(&["-l", "5"]), "gauge: run\n");
    assert_eq!(asked(&["-s", "-l", "5"]), "gauge: run\n");
    assert_eq!(asked(&["-s", "а"]), "speak: run\n");
    assert_eq!(asked(&["5"]), "speak: run\n");
}

#[test]
fn building_shows_a_line_for_each_crate() {
    let (status, print, progress) = speak_with_rt("rt-that-proves", 0);
    assert_eq!((status, &print[..]), (Some(0), "24 6 39 0 41 1 45\n"));
    let untimed = progress.replace(|c: char| c.is_ascii_digit(), "");
    assert_eq!(untimed, "rt: message proved ( s)\nrt: speak proved ( s)\n");
    assert_ne!(untimed, progress);
}

#[test]
fn a_failed_proof_is_shown_and_nothing_spoken() {
    let (status, print, complaint) = speak_with_rt("rt-that-fails", 3);
    assert_eq!((status, &print[..]), (Some(1), ""));
    assert!(complaint.contains("fn message::check::check: proved\n"));
    assert!(complaint.ends_with("rt: running out/speak\n"));
}
