//! Has rustc compile the board's text, so that the tests can run on it too.

use as_rust::compile::{whole, SHARED};
use std::env;
use std::path::{Path, PathBuf};
use std::process::exit;

fn main() {
    println!("cargo:rerun-if-changed=../crates.txt");
    println!("cargo:rerun-if-changed=../crates");
    let folder = PathBuf::from(variable("OUT_DIR")).join("text");
    let rustc = PathBuf::from(variable("RUSTC"));
    whole(Path::new(".."), rustc, &folder).unwrap_or_else(failed);
    println!("cargo:rustc-link-search=native={}", folder.display());
    println!("cargo:rustc-link-lib=dylib={SHARED}");
    println!("cargo:rustc-env=TEXT_FOLDER={}", folder.display());
}

fn variable(name: &str) -> String {
    env::var(name).unwrap_or_else(|error| failed(format!("{name}: {error}")))
}

fn failed<T>(why: String) -> T {
    eprintln!("{why}");
    exit(1)
}
