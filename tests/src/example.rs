//! The examples in C, built from the header and the archive.

use std::path::{Path, PathBuf};
use std::process::Command;

use crate::unit::ARCHIVE;

/// What to do about a missing tool.
pub const SET_UP: &str = "tests/setup installs what is missing";

/// A file of the folder of examples.
pub fn file(name: &str) -> PathBuf {
    root().join("examples").join(name)
}

fn root() -> &'static Path {
    Path::new(concat!(env!("CARGO_MANIFEST_DIR"), "/.."))
}

/// Builds an example into this folder, without a warning.
pub fn build(name: &str, folder: &str) -> PathBuf {
    let source = file(&format!("{name}.c"));
    let program = Path::new(folder).join(name);
    let built = Command::new("gcc")
        .args(["-std=c11", "-Wall", "-Wextra", "-Werror", "-O2", "-g", "-I"])
        .args([&root().join("include"), &source])
        .args([Path::new(ARCHIVE), Path::new("-o"), &program])
        .status()
        .unwrap_or_else(|error| panic!("gcc: {error}; {SET_UP}"));
    assert!(built.success(), "{name} builds");
    program
}

/// Runs a program so that an error with memory, or memory that it keeps, makes its status 9.
pub fn under_valgrind(program: &Path) -> Command {
    let mut command = Command::new("valgrind");
    command
        .args(["--tool=memcheck", "--quiet", "--error-exitcode=9"])
        .args(["--leak-check=full", "--errors-for-leak-kinds=all"])
        .arg(program);
    command
}
