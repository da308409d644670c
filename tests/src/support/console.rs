//! The console as a process, beside the console as a function.

use crate::support::answered;
use crate::support::executables::console_program;
use crate::support::transcript::assert_session;
use std::process::Command;

/// The console's executable, with `--all` or without.
pub fn console(all: bool) -> Command {
    let mut command = Command::new(console_program());
    command.args(all.then_some("--all"));
    command
}

/// Runs the console on this input; it answers what the function answers. Gives the
/// answers.
pub fn compare(all: bool, input: impl AsRef<[u8]>) -> Vec<String> {
    answered::compare(console(all), all, input.as_ref())
}

/// Runs the console on the lines of the session; it answers as the function does, and as
/// it is written out.
pub fn compare_session(all: bool, session: &str) {
    assert_session(session, |input| compare(all, input));
}
