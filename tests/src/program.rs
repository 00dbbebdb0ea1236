//! The programs under test, one process for each input.

use std::env;
use std::io::{ErrorKind, Write};
use std::path::{Path, PathBuf};
use std::process::{Child, Command, Stdio};
use std::thread;
use std::time::Duration;

use crate::answers::{expected_level, expected_print, expected_speech};

/// What goes to standard output and to standard error.
pub type Written = (String, String);

/// What is written where all goes well and this is printed.
pub fn good(print: impl Into<String>) -> Written {
    (print.into(), String::new())
}

/// A program under test, and what it must write.
#[derive(Clone, Copy, Debug)]
pub struct Program {
    pub name: &'static str,
    /// The environment variable that names another program to try in its place.
    variable: &'static str,
    /// What it must write for the bytes of its standard input.
    pub expected: fn(&[u8]) -> Written,
}

/// It takes a message.
pub const GOVORUN: Program = Program {
    name: "govorun",
    variable: "GOVORUN_PROGRAM",
    expected: |input| good(expected_print(input)),
};

/// It takes a text in UTF-8.
pub const SPEAK: Program = Program {
    name: "speak",
    variable: "GOVORUN_SPEAK",
    expected: |input| match expected_speech(input) {
        Some(print) => good(print),
        None => (String::new(), TOO_LONG.to_string()),
    },
};

/// It takes a level in decimal.
pub const GAUGE: Program = Program {
    name: "gauge",
    variable: "GOVORUN_GAUGE",
    expected: |input| match expected_level(input) {
        Some(print) => good(print),
        None => (String::new(), NO_NUMBER.to_string()),
    },
};

/// What `speak` says on standard error where its input is longer than it takes.
pub const TOO_LONG: &str = "speak: standard input is too long\n";

/// What `gauge` says on standard error where its input is no number.
pub const NO_NUMBER: &str = "gauge: standard input is no number\n";

impl Program {
    /// Where the program is.
    pub fn path(self) -> PathBuf {
        let built = || format!("../crates/{0}/out/{0}", self.name).into();
        let given = env::var_os(self.variable).unwrap_or_else(built);
        Path::new(env!("CARGO_MANIFEST_DIR")).join(given)
    }

    pub fn start(self, input: Stdio) -> Child {
        let path = self.path();
        let mut command = Command::new(&path);
        command.stdout(Stdio::piped()).stderr(Stdio::piped());
        command.stdin(input).spawn().unwrap_or_else(|error| {
            let (path, name, variable) = (path.display(), self.name, self.variable);
            panic!(
                "{path}: {error}; `rt run` in crates/{name} builds it, or {variable} names another"
            )
        })
    }

    /// What it writes for an input that comes through a pipe, in pieces of this length.
    pub fn piped(self, input: &[u8], piece: usize, wait: Duration) -> Written {
        let mut child = self.start(Stdio::piped());
        let mut pipe = child.stdin.take().expect("a pipe was asked for");
        for part in input.chunks(piece) {
            match pipe.write_all(part) {
                Ok(()) => thread::sleep(wait),
                // It may stop reading once it is clear that the input is too long.
                Err(error) => assert_eq!(error.kind(), ErrorKind::BrokenPipe),
            }
        }
        drop(pipe);
        written(child)
    }
}

/// What a process wrote, once it has ended with status 0.
pub fn written(child: Child) -> Written {
    let output = child.wait_with_output().expect("the program ends");
    assert!(output.status.success(), "{}", output.status);
    let text = |bytes: Vec<u8>| String::from_utf8_lossy(&bytes).into_owned();
    (text(output.stdout), text(output.stderr))
}
