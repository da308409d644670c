//! The console as a job at a terminal: signals and the keys that send them, the background,
//! a hang-up. However it ends or stops, the terminal is then as it was.

use crate::support::jobs::{assert_hang_up_ends, assert_signals_end, assert_stopped_ends};
use crate::support::keyed::{
    at_prompt, at_prompt_of, end_by_ctrl_d, finish_second_line, in_second_line, WIDTH,
};
use crate::support::keys::{CTRL_BACKSLASH, CTRL_C, CTRL_Z, ENTER};
use crate::support::pseudo_terminal::{send, HANG_UP, INTERRUPT, QUIT, STOP_KEY, TERMINATE};
use crate::support::screen::Screen;
use crate::support::script_folder::Folder;
use crate::support::terminal::Terminal;

/// The signal that stops any process.
const STOP: i32 = 19;

/// Ctrl-C and Ctrl-\ as in line mode, though the terminal sends no signal.
#[test]
fn an_interrupting_key_ends_the_console() {
    let folder = Folder::new("board", "interrupts");
    for begin in [at_prompt, in_second_line] {
        for (key, signal) in [(CTRL_C, INTERRUPT), (CTRL_BACKSLASH, QUIT)] {
            let case = format!("signal {signal} by its key");
            let mut terminal = begin(&folder);
            terminal.key(key);
            assert_eq!(terminal.end(128 + signal, &case), "", "{case}");
        }
    }
}

/// A signal from outside.
#[test]
fn a_signal_ends_the_console() {
    let folder = Folder::new("board", "signals");
    assert_signals_end(&folder, [at_prompt, in_second_line], |terminal| {
        assert_eq!(terminal.program(), terminal.command(), "no process between");
        terminal.program()
    });
}

/// A signal that is ignored when the console begins.
#[test]
fn an_ignored_signal() {
    let folder = Folder::new("board", "ignored");
    let command = "trap '' HUP INT QUIT TERM TSTP; exec ./board";
    let mut terminal = at_prompt_of(&folder, &["sh", "-c", command]);
    for signal in [HANG_UP, INTERRUPT, QUIT, TERMINATE, STOP_KEY] {
        send(signal, terminal.program());
    }
    for key in [CTRL_C, CTRL_BACKSLASH, CTRL_Z] {
        terminal.key(&[key, b"start 8\rlift A\r"].concat());
        terminal.shows("start 8\nok\n> lift A\nok 3\n> ", "the answers");
        terminal.await_keys(false);
    }
    end_by_ctrl_d(terminal, "ignored");
}

/// All that runs at the terminal is a job: what reads the answers is stopped and ended
/// with the console.
#[test]
fn a_key_is_for_the_whole_job() {
    let folder = Folder::new("board", "job");
    let mut terminal = at_prompt_of(&folder, &["sh", "-c", "./board | sleep 1000"]);
    terminal.stop();
    terminal.key(ENTER);
    terminal.shows("\n\r\x1b[K> ", "continued");
    terminal.key(CTRL_C);
    assert_eq!(terminal.end(128 + INTERRUPT, "ended"), "");
}

/// A terminal that is closed.
#[test]
fn a_hang_up_ends_the_console() {
    let folder = Folder::new("board", "hang_up");
    assert_hang_up_ends(&folder, [at_prompt, in_second_line]);
}

/// By Ctrl-Z or its signal: the terminal is as before while the console is stopped; then
/// the line is shown again, and keyed on where the cursor was.
#[test]
fn a_stopped_console_goes_on() {
    let folder = Folder::new("board", "stopped");
    let mut terminal = in_second_line(&folder);
    terminal.key(b" BA\x02");
    let shown = terminal.read_until("the cursor", |shown| shown.ends_with("C"));
    assert_eq!(
        Screen::of(&shown, WIDTH).cursor_row(),
        "> lift B_A",
        "{shown:?}"
    );
    for by_key in [true, false, false, true] {
        let case = format!("stopped by a key: {by_key}");
        match by_key {
            true => terminal.key(CTRL_Z),
            false => send(STOP_KEY, terminal.program()),
        }
        assert_eq!(terminal.stopped(&case), "", "{case}");
        terminal.key(ENTER);
        terminal.shows("\n\r\x1b[K> lift BA\r\x1b[8C", &case);
        terminal.await_keys(false);
    }
    terminal.key(b"\x7f\r");
    terminal.read_until("the answer", |shown| shown.ends_with("\nok 3\n> "));
    end_by_ctrl_d(terminal, "continued");
}

/// Has the shell run a line in which the console, in the background, is stopped. The line
/// ends with the status of that.
fn stop_in_the_background(terminal: &mut Terminal, line: &str) {
    terminal.key(line.as_bytes());
    terminal.key(ENTER);
    assert_eq!(terminal.stopped("background"), format!("{line}\n"));
}

/// While the shell has the terminal, the console shows nothing and leaves the settings
/// alone: it is stopped again.
#[test]
fn a_console_in_the_background() {
    let folder = Folder::new("board", "background");
    let mut terminal = in_second_line(&folder);
    terminal.stop();
    stop_in_the_background(&mut terminal, "bg >/dev/null; sleep 0.3; (exit 148)");
    terminal.key(ENTER);
    terminal.shows("\n\r\x1b[K> lift", "continued");
    finish_second_line(&mut terminal);
}

/// It waits for the terminal, stopped, before it shows or changes anything.
#[test]
fn a_console_begun_in_the_background() {
    let folder = Folder::new("board", "begun_behind");
    let mut terminal = Terminal::running(&folder, &["true"]);
    terminal.shows("status 0\n", "the shell");
    stop_in_the_background(&mut terminal, "./board 2>&3 & sleep 0.3; (exit 148)");
    terminal.key(ENTER);
    terminal.shows("\n> ", "the prompt");
    terminal.await_keys(false);
    terminal.key(b"start 8\rlift A\r");
    terminal.shows("start 8\nok\n> lift A\nok 3\n> ", "the answers");
    end_by_ctrl_d(terminal, "continued");
}

/// As a shell ends a stopped job, which does not have the terminal then.
#[test]
fn a_stopped_console_ends() {
    let folder = Folder::new("board", "stopped_ended");
    assert_stopped_ends(in_second_line(&folder));
}

/// By a signal that no process can catch: key-by-key mode is taken again from whatever
/// settings the shell has put in its place.
#[test]
fn a_console_stopped_from_outside_goes_on() {
    let folder = Folder::new("board", "stopped_outside");
    let mut terminal = in_second_line(&folder);
    send(STOP, terminal.program());
    terminal.shows(&format!("status {}\n", 128 + STOP), "stopped");
    terminal.key(b"stty isig icanon echo\r");
    terminal.shows("status 0\n", "other settings");
    terminal.key(ENTER);
    terminal.shows("\n\r\x1b[K> lift", "continued");
    terminal.await_keys(false);
    finish_second_line(&mut terminal);
    terminal.key(CTRL_C);
    assert_eq!(terminal.end(128 + INTERRUPT, "Ctrl-C"), "");
}
