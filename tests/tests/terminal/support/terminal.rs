//! A command that is run at a terminal: what is keyed there and what is shown.

use crate::support::keys::CTRL_Z;
use crate::support::pseudo_terminal::{
    begin_session, open, readable, send, Settings, KILL, STOP_KEY,
};
use crate::support::script_folder::Folder;
use std::fs::{read_dir, read_link, read_to_string, File};
use std::io::{Read, Write};
use std::process::Child;
use std::thread::sleep;
use std::time::{Duration, Instant};

/// The longest that an answer, or the end, may take.
const LIMIT: Duration = Duration::from_secs(30);

/// The shell of the terminal, as a user's: it runs the command as a job of its own and
/// shows its status when it has ended or is stopped. On Enter a stopped one goes on; a
/// line that is not empty is run instead.
const SHELL: &str = r#"
    set -m
    trap : INT
    exec 3>&2 2>/dev/null
    (exec "$@" 2>&3 3>&-)
    while echo "status $?"; read -r line; do eval "${line:-fg >/dev/null}"; done
"#;

/// A running command: its folder, its shell, the two sides of the terminal, and the
/// terminal's settings before it ran.
pub struct Terminal<'a> {
    folder: &'a Folder,
    shell: Child,
    near: Option<File>,
    far: Option<File>,
    before: Settings,
}

impl Terminal<'_> {
    /// Runs the command in this folder at a new terminal.
    pub fn running<'a>(folder: &'a Folder, command: &[&str]) -> Terminal<'a> {
        let (near, far) = open().expect("a pseudo-terminal");
        let side = || far.try_clone().expect("one more handle");
        let mut shell = folder.command("/bin/sh");
        shell.args(["-c", SHELL, "sh"]).args(command);
        shell.stdin(side()).stdout(side()).stderr(side());
        begin_session(&mut shell);
        let before = Settings::of(&far);
        Terminal {
            folder,
            shell: shell.spawn().expect("the shell runs"),
            near: Some(near),
            far: Some(far),
            before,
        }
    }

    /// Keys these bytes.
    pub fn key(&mut self, keys: &[u8]) {
        let near = self.near.as_mut().expect("a terminal to key at");
        near.write_all(keys).expect("room for the keys");
    }

    /// Asserts that this text, and nothing before it, is shown next.
    pub fn shows(&mut self, text: &str, case: &str) {
        let shown = self.read_until(case, |shown| shown.len() >= text.len());
        assert_eq!(shown, text, "{case}");
    }

    /// Waits for a line that ends with this text, whatever is shown before it.
    pub fn shows_at_last(&mut self, text: &str) {
        self.read_until(text, |shown| shown.ends_with(text));
    }

    /// Waits until the command has ended with this status; gives what is shown up to
    /// then. Nothing is left behind.
    pub fn end(mut self, status: i32, case: &str) -> String {
        let shown = self.status(status, case);
        self.assert_nothing_left(case);
        shown
    }

    /// Keys Ctrl-Z where keys are not shown: all is stopped, and nothing is shown.
    pub fn stop(&mut self) {
        self.key(CTRL_Z);
        assert_eq!(self.stopped("stopped"), "");
    }

    /// Waits until the command and all that it runs is stopped; gives what is shown up
    /// to then. The terminal is as before.
    pub fn stopped(&mut self, case: &str) -> String {
        let shown = self.status(128 + STOP_KEY, case);
        await_that(case, || self.job().all(|id| field(id, STATE) == "T"));
        assert_eq!(self.settings(), self.before, "{case}");
        shown
    }

    /// Waits until the shell shows this status; gives what is shown up to then.
    fn status(&mut self, status: i32, case: &str) -> String {
        let line = format!("status {status}\n");
        let mut shown = self.read_until(case, |shown| {
            let last = shown.lines().next_back().unwrap_or_default();
            shown.ends_with('\n') && last.contains("status ")
        });
        assert!(shown.ends_with(&line), "{shown:?}, not {line:?}: {case}");
        shown.truncate(shown.len() - line.len());
        shown
    }

    /// Waits until no process but the shell is left. The terminal is then as before, and
    /// no temporary file is there.
    pub fn assert_nothing_left(&self, case: &str) {
        await_that(case, || self.job().next().is_none());
        assert_eq!(self.settings(), self.before, "{case}");
        self.assert_no_file_left(case);
    }

    /// Asserts that no temporary file is there.
    fn assert_no_file_left(&self, case: &str) {
        let files = read_dir(self.folder.path().join("temporary"));
        let left: Vec<_> = files.expect("the folder for them").flatten().collect();
        assert!(left.is_empty(), "left behind: {left:?}, {case}");
    }

    /// Closes the terminal. All that is run there ends, and leaves no file behind.
    pub fn hang_up(mut self, case: &str) {
        (self.near, self.far) = (None, None);
        await_that(case, || self.processes().next().is_none());
        self.assert_no_file_left(case);
    }

    /// What is shown next, byte by byte until there is enough. Lines end with bytes 13
    /// and 10 there, and with byte 10 here.
    pub fn read_until(&mut self, case: &str, enough: impl Fn(&str) -> bool) -> String {
        let near = self.near.as_mut().expect("a terminal to look at");
        let begun = Instant::now();
        let mut shown = String::new();
        while shown.ends_with('\r') || !enough(&shown) {
            let left = LIMIT.saturating_sub(begun.elapsed());
            assert!(readable(near, left), "only {shown:?} is shown: {case}");
            let mut byte = [0];
            near.read_exact(&mut byte).expect("a byte that is shown");
            if byte == *b"\n" && shown.ends_with('\r') {
                shown.pop();
            }
            shown.push(char::from(byte[0]));
        }
        shown
    }

    /// The settings that the terminal has now.
    fn settings(&self) -> Settings {
        Settings::of(self.far.as_ref().expect("an open terminal"))
    }

    /// Waits until each key is handed on and not shown, and nothing else is changed; keys
    /// still send signals, or do not.
    pub fn await_keys(&self, signals: bool) {
        let by_keys = self.before.by_keys(signals);
        await_that("each key is handed on", || self.settings() == by_keys);
    }

    /// The command's process, which is the shell's child.
    pub fn command(&self) -> i32 {
        let shell = self.shell.id().to_string();
        let command = self.job().find(|&id| field(id, PARENT) == shell);
        command.expect("the command's process")
    }

    /// The process of the script's program.
    pub fn program(&self) -> i32 {
        let path = self.folder.program().canonicalize().ok();
        let runs_it = |id: &i32| read_link(format!("/proc/{id}/exe")).ok() == path;
        let program = self.job().find(runs_it);
        program.expect("the program's process")
    }

    /// The processes of the terminal's session but the shell.
    fn job(&self) -> impl Iterator<Item = i32> {
        let shell = self.shell.id() as i32;
        self.processes().filter(move |&id| id != shell)
    }

    /// The processes of the terminal's session that have not ended.
    fn processes(&self) -> impl Iterator<Item = i32> {
        let session = self.shell.id().to_string();
        let entries = read_dir("/proc").expect("the processes").flatten();
        entries
            .filter_map(|entry| entry.file_name().to_str()?.parse().ok())
            .filter(move |&id| field(id, SESSION) == session && field(id, STATE) != "Z")
    }
}

impl Drop for Terminal<'_> {
    /// Ends the shell, and what is run where a test failed before that ended.
    fn drop(&mut self) {
        self.processes().for_each(|id| send(KILL, id));
        self.shell.wait().ok();
    }
}

/// Looks until it is so.
fn await_that(what: &str, is_so: impl Fn() -> bool) {
    let begun = Instant::now();
    while !is_so() {
        assert!(begun.elapsed() < LIMIT, "not in time: {what}");
        sleep(Duration::from_millis(1));
    }
}

/// The places of fields behind a process's name in its line of `/proc`.
const STATE: usize = 0;
const PARENT: usize = 1;
const SESSION: usize = 3;

/// A field of the process's line; empty where there is no such process.
fn field(id: i32, place: usize) -> String {
    let line = read_to_string(format!("/proc/{id}/stat")).unwrap_or_default();
    let after_name = line.rsplit(')').next().unwrap_or_default();
    let field = after_name.split_whitespace().nth(place);
    field.unwrap_or_default().to_string()
}
