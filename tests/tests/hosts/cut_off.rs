//! What a script leaves that is cut off in its middle: a state can be kept in memory that
//! outlives a reset.

use crate::support::c_program::program;
use std::process::Command;

/// The numbers of the state go with its arrays, call by call, and not at the script's end.
#[test]
fn numbers_are_stored_call_by_call() {
    let looked = program("gcc -std=c11 -O2", "c/cut_off.c", "cut_off");
    let output = Command::new(looked).output().expect("the program run");
    let said = String::from_utf8_lossy(&output.stdout);
    assert!(output.status.success(), "{said}");
}
