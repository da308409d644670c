//! Files in C compiled with the header.

use std::path::Path;
use std::process::{Command, Output};

/// Where the tests' own files go.
pub fn folder() -> &'static Path {
    Path::new(env!("CARGO_TARGET_TMPDIR"))
}

/// What the compiler, which is given with its flags, says to these files and words, with
/// every warning an error and the header's folder among those that it looks in.
pub fn compiler(command: &str, words: &[&Path]) -> Output {
    let mut flags = command.split(' ');
    let output = Command::new(flags.next().expect("a compiler"))
        .args(flags)
        .args(["-Wall", "-Wextra", "-Werror", "-I../include"])
        .args(words)
        .output();
    output.unwrap_or_else(|error| panic!("{command}: {error}"))
}
