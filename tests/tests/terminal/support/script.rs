//! A script away from a terminal: what it gives on an input, and its help.

use crate::support::script_folder::Folder;
use std::io::Write;
use std::process::{Command, Output, Stdio};

/// All that the command gives on this input; where that is empty, on the null device.
pub fn output_of(mut command: Command, input: &str) -> Output {
    if input.is_empty() {
        let output = command.stdin(Stdio::null()).output();
        return output.expect("the command runs");
    }
    command.stdin(Stdio::piped());
    command.stdout(Stdio::piped()).stderr(Stdio::piped());
    let mut child = command.spawn().expect("the command runs");
    let mut to_input = child.stdin.take().expect("a piped input");
    // A script that has ended leaves the input unread.
    to_input.write_all(input.as_bytes()).ok();
    drop(to_input);
    child.wait_with_output().expect("its output")
}

/// Asserts that the folder's script gives one text for `--help` on standard output and for
/// each of the other arguments on standard error, and does not read the input. Gives that
/// text.
pub fn assert_help(folder: &Folder, others: &[&[&str]], input: &str) -> Vec<u8> {
    let output = |arguments: &[&str]| {
        let mut command = folder.command(folder.script());
        command.args(arguments);
        output_of(command, input)
    };
    let help = output(&["--help"]);
    assert_eq!(help.status.code(), Some(0));
    assert_eq!(help.stderr, b"");
    for arguments in others {
        let other = output(arguments);
        assert_eq!(other.status.code(), Some(2), "{arguments:?}");
        assert_eq!(other.stdout, b"", "{arguments:?}");
        assert_eq!(other.stderr, help.stdout, "{arguments:?}");
    }
    help.stdout
}
