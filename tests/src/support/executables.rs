//! Where the executables of the draft program and of the console are.

use crate::library::on_text;
use as_rust::sources::DRAFT;
use std::env;
use std::path::{Path, PathBuf};

/// The draft program: the path in `DRAFT_PROGRAM`, or else `../crates/draft/out/draft`; where the
/// tests run on the text, what rustc makes of it.
pub fn draft_program() -> PathBuf {
    if on_text() && env::var_os("DRAFT_PROGRAM").is_none() {
        return of_text(DRAFT);
    }
    let place = "../crates/draft/out/draft";
    built(place, "DRAFT_PROGRAM", "`rt run` in crates/draft")
}

/// What rustc makes of the text of this program.
pub fn of_text(program: &str) -> PathBuf {
    Path::new(env!("TEXT_FOLDER")).join(program)
}

/// The console: the path in `CONSOLE_PROGRAM`, or else `../target/bin/console`.
pub fn console_program() -> PathBuf {
    built("../target/bin/console", "CONSOLE_PROGRAM", "`./board`")
}

/// The executable: the path in the variable, or else this place, where the command builds it.
fn built(place: &str, variable: &str, command: &str) -> PathBuf {
    let path = env::var_os(variable)
        .filter(|path| !path.is_empty())
        .map_or_else(|| PathBuf::from(place), PathBuf::from);
    let there = path.is_file();
    assert!(there, "no {}: run {command}", path.display());
    path
}
