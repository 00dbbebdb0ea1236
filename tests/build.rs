//! Finds the archive of the library that the tests link: the one that `rt lib` in crates/capi writes,
//! or that of the folder in the environment variable GOVORUN_LIB.

use std::env;
use std::path::{Path, PathBuf};

fn main() {
    let folder = folder();
    let archive = folder.join("libcapi.a");
    println!("cargo:rerun-if-env-changed=GOVORUN_LIB");
    println!("cargo:rerun-if-changed={}", archive.display());
    assert!(
        archive.is_file(),
        "there is no {}: `rt lib` in crates/capi writes it, or GOVORUN_LIB names another folder",
        archive.display()
    );
    println!("cargo:rustc-link-search=native={}", folder.display());
    println!("cargo:rustc-env=GOVORUN_ARCHIVE={}", archive.display());
}

/// The folder of the archive. A given one may be relative to this project.
fn folder() -> PathBuf {
    let project = env::var_os("CARGO_MANIFEST_DIR").expect("cargo sets it");
    let given = env::var_os("GOVORUN_LIB").unwrap_or_else(|| "../crates/capi/out".into());
    Path::new(&project).join(given)
}
