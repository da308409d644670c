//! A program as a process of its own.

use std::io::{BufRead, BufReader};
use std::process::{Child, ChildStdin, ChildStdout, Command, ExitStatus, Stdio};
use std::sync::mpsc::{channel, Receiver, RecvTimeoutError, Sender};
use std::thread::{sleep, spawn};
use std::time::{Duration, Instant};

/// The longest that a line, or the end of the program, may take.
const LIMIT: Duration = Duration::from_secs(10);

/// A running program and the lines that it prints.
pub struct Process {
    child: Child,
    lines: Receiver<Vec<u8>>,
}

impl Process {
    /// Runs the command, which is the program or calls it, on this standard input.
    pub fn of(mut command: Command, input: Stdio) -> Process {
        let mut child = command
            .stdin(input)
            .stdout(Stdio::piped())
            .spawn()
            .expect("the program runs");
        let output = child.stdout.take().expect("a piped output");
        let (sender, lines) = channel();
        spawn(move || send_lines(output, &sender));
        Process { child, lines }
    }

    /// Runs the command with an open pipe as its standard input.
    pub fn on_pipe(command: Command) -> (Process, ChildStdin) {
        let mut process = Process::of(command, Stdio::piped());
        let input = process.child.stdin.take().expect("a piped input");
        (process, input)
    }

    /// The next line, byte 10 included; none where the output ends.
    pub fn next_line(&mut self, case: &str) -> Option<Vec<u8>> {
        match self.lines.recv_timeout(LIMIT) {
            Ok(line) => Some(line),
            Err(RecvTimeoutError::Disconnected) => None,
            Err(RecvTimeoutError::Timeout) => panic!("no line and no end: {case}"),
        }
    }

    /// All that is still printed up to the end of the program, which ends by itself, and
    /// its status.
    pub fn end(mut self, case: &str) -> (String, ExitStatus) {
        let mut output = Vec::new();
        while let Some(line) = self.next_line(case) {
            output.extend(line);
        }
        let begun = Instant::now();
        while begun.elapsed() < LIMIT {
            if let Some(status) = self.child.try_wait().expect("a child's status") {
                return (String::from_utf8_lossy(&output).into_owned(), status);
            }
            sleep(Duration::from_millis(1));
        }
        panic!("does not end: {case}");
    }

    /// All that is still printed up to the end of the program, which no signal ends.
    pub fn rest(self, case: &str) -> String {
        let (output, status) = self.end(case);
        assert!(status.code().is_some(), "ended by {status}: {case}");
        output
    }
}

impl Drop for Process {
    /// Ends the program where a test failed before it did.
    fn drop(&mut self) {
        self.child.kill().ok();
        self.child.wait().ok();
    }
}

/// Sends each line of the output as it comes.
fn send_lines(output: ChildStdout, lines: &Sender<Vec<u8>>) {
    let mut output = BufReader::new(output);
    loop {
        let mut line = Vec::new();
        let read = output.read_until(10, &mut line);
        if read.unwrap_or(0) == 0 || lines.send(line).is_err() {
            return;
        }
    }
}
