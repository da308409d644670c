//! The draft program, or the script that runs it, as a process of its own.

use crate::support::executables::draft_program;
use crate::support::process::Process;
use std::fs::{write, File};
use std::io::{pipe, Read, Seek, Write};
use std::path::Path;
use std::process::{Command, Stdio};

/// The draft program's executable.
pub fn draft() -> Command {
    Command::new(draft_program())
}

/// All that the program prints on this input.
pub fn printed_on(input: &[u8], case: &str) -> String {
    let (process, mut pipe) = Process::on_pipe(draft());
    // A program that has ended leaves the rest unread.
    pipe.write_all(input).ok();
    drop(pipe);
    process.rest(case)
}

/// Runs the command on a pipe that holds this input and no more. Gives what it prints, and
/// what it leaves in the pipe.
pub fn on_shared_pipe(command: Command, input: &[u8], case: &str) -> (String, Vec<u8>) {
    let (mut reader, mut writer) = pipe().expect("a pipe");
    writer.write_all(input).expect("room in the pipe");
    drop(writer);
    let shared = reader.try_clone().expect("one more handle");
    let printed = Process::of(command, Stdio::from(shared)).rest(case);
    let mut left = Vec::new();
    reader.read_to_end(&mut left).expect("the rest");
    (printed, left)
}

/// Runs the command on a file that is written there with this input; the two share one place
/// in it. Gives what the command prints, and the place where it leaves the file.
pub fn on_shared_file(command: Command, path: &Path, input: &[u8], case: &str) -> (String, u64) {
    write(path, input).expect("a file to read from");
    let mut file = File::open(path).expect("that file");
    let shared = file.try_clone().expect("one more handle");
    let printed = Process::of(command, Stdio::from(shared)).rest(case);
    (printed, file.stream_position().expect("its place"))
}
