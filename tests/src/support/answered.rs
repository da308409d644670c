//! Answers of a program that is given the console's lines, beside those of the console as
//! a function.

use crate::spoken::{lines_of, Console};
use crate::support::process::Process;
use std::io::{pipe, Read, Write};
use std::process::Command;

/// Runs the command on the lines of this input; it answers what the function answers, with
/// `--all` or without. Gives the answers.
pub fn compare(command: Command, all: bool, input: &[u8]) -> Vec<String> {
    let answers = answers_to(command, input);
    assert_answered(all, input, &answers);
    answers
}

/// The command's answers to the lines of this input, one of its lines each. It ends with
/// status 0 and writes nothing to standard error.
fn answers_to(mut command: Command, input: &[u8]) -> Vec<String> {
    let case = end_of(input);
    let (mut errors, to_errors) = pipe().expect("a pipe");
    command.stderr(to_errors);
    let (process, mut to_input) = Process::on_pipe(command);
    // A program that has ended leaves the rest unread.
    to_input.write_all(input).ok();
    drop(to_input);
    let (output, status) = process.end(&case);
    let mut written = String::new();
    errors.read_to_string(&mut written).expect("plain text");
    assert!(status.success(), "{status}, {written}: {case}");
    assert_eq!(written, "", "standard error: {case}");
    let whole = output.is_empty() || output.ends_with('\n');
    assert!(whole, "the last answer has no byte 10: {case}");
    output.split_terminator('\n').map(String::from).collect()
}

/// How many of the answers are those of accepted calls.
pub fn accepted(answers: &[String]) -> usize {
    let accepted = answers.iter().filter(|answer| answer.starts_with("ok"));
    accepted.count()
}

/// Asserts that every answer is that of an accepted call.
pub fn assert_all_accepted(answers: &[String], case: &str) {
    let other = answers.iter().find(|answer| !answer.starts_with("ok"));
    assert_eq!(other, None, "{case}");
}

/// The last lines of an input, for a failure.
fn end_of(input: &[u8]) -> String {
    let text = String::from_utf8_lossy(input);
    let mut lines: Vec<&str> = text.lines().rev().take(80).collect();
    lines.reverse();
    lines.join("\n")
}

/// Asserts that these are the answers to the lines of the input, and no others.
pub fn assert_answered(all: bool, input: &[u8], answers: &[String]) {
    let mut console = Console::new(all);
    let mut given = answers.iter();
    let mut read = 0;
    for line in lines_of(input) {
        read += line.len() + 1;
        for expected in console.answers(line) {
            let answer = given.next();
            let is_given = answer.is_some_and(|answer| expected.is(answer));
            let case = || end_of(&input[..read.min(input.len())]);
            assert!(is_given, "{answer:?}, not {expected:?}: {}", case());
        }
    }
    let more: Vec<&String> = given.collect();
    assert!(
        more.is_empty(),
        "more than the answers: {more:?}, {}",
        end_of(input)
    );
}
