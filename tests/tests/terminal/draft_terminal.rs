//! The script `draft` at a terminal: it hands each key on at once, and leaves the
//! terminal as it was.

use crate::support::jobs::{
    assert_hang_up_ends, assert_signals_end, assert_stopped_ends, typed_ahead,
};
use crate::support::keys::{BACKSPACE, CTRL_BACKSLASH, CTRL_C, CTRL_D, CTRL_Z, ENTER};
use crate::support::pseudo_terminal::{send, INTERRUPT, KILL, QUIT};
use crate::support::script_folder::Folder;
use crate::support::terminal::Terminal;
use comparison::draft::run;
use comparison::samples::{repeated, Generator};
use comparison::MOST_PICKS;
use std::fs::read_to_string;

const HEADER: &str = "picks,mask,visits,longest\n";

/// All that the function prints on the input.
fn printed(input: &[u8]) -> String {
    String::from_utf8(run(input).output).expect("plain text")
}

/// What the function prints for these picks after the first line `8`.
fn answers(picks: &[u8]) -> String {
    printed(&[b"8\n", picks].concat()).split_off(HEADER.len())
}

/// The script at a terminal, with its header shown.
fn at_first_line(folder: &Folder) -> Terminal<'_> {
    let mut terminal = Terminal::running(folder, &["./draft"]);
    terminal.shows(HEADER, "the header");
    terminal
}

/// The script at a terminal, with `8` keyed as its first line.
fn at_picks(folder: &Folder) -> Terminal<'_> {
    let mut terminal = at_first_line(folder);
    terminal.key(b"8");
    terminal.key(ENTER);
    terminal.shows("8\n", "the first line");
    terminal.await_keys(true);
    terminal
}

/// The script at a terminal, with these picks keyed too, and answered.
fn behind_picks<'a>(folder: &'a Folder, picks: &[u8]) -> Terminal<'a> {
    let mut terminal = at_picks(folder);
    key_picks(&mut terminal, picks);
    terminal
}

/// Keys these picks behind the first line, once each key is handed on; they are answered.
fn key_picks(terminal: &mut Terminal, picks: &[u8]) {
    terminal.await_keys(true);
    terminal.key(picks);
    terminal.shows(&answers(picks), "the picks");
}

/// No Enter between the picks, and none of them shown: only what answers them is.
#[test]
fn each_pick_is_answered_as_it_is_keyed() {
    let folder = Folder::new("draft", "picks");
    let picks = [b"ABABABA".to_vec(), Generator(4).draft(2, 60)].concat();
    let mut terminal = at_picks(&folder);
    for (&pick, line) in picks.iter().zip(answers(&picks).split_inclusive('\n')) {
        terminal.key(&[pick]);
        terminal.shows(line, line);
    }
    terminal.key(ENTER);
    assert_eq!(terminal.end(0, "Enter"), "");
}

/// Before any pick, and after some.
#[test]
fn enter_and_ctrl_d_end_the_picks() {
    let folder = Folder::new("draft", "ends");
    for last in [ENTER, CTRL_D] {
        for picks in ["", "A", "ABA"] {
            let case = format!("{picks:?} and {last:?}");
            let mut terminal = behind_picks(&folder, picks.as_bytes());
            terminal.key(last);
            assert_eq!(terminal.end(0, &case), "", "{case}");
        }
    }
}

/// The first line is keyed as any line is: shown, and corrected before Enter.
#[test]
fn the_first_line_can_be_corrected() {
    let folder = Folder::new("draft", "corrected");
    let mut terminal = at_first_line(&folder);
    terminal.key(&[b"9", BACKSPACE, b"8", ENTER].concat());
    terminal.shows("9\x08 \x088\n", "corrected");
    key_picks(&mut terminal, b"AAAA");
    terminal.key(ENTER);
    assert_eq!(terminal.end(0, "corrected"), "");
}

/// By Enter, or by Ctrl-D, which is keyed twice where the line is not empty.
#[test]
fn a_refused_first_line_ends_the_run() {
    let folder = Folder::new("draft", "first_line");
    for (keys, shown) in [
        ("9\r", "9\n"),
        ("88\r", "88\n"),
        ("8A\r", "8A\n"),
        ("\r", "\n"),
        ("\x04", ""),
        ("8\x04\x04", "8"),
    ] {
        let mut terminal = at_first_line(&folder);
        terminal.key(keys.as_bytes());
        let expected = format!("{shown}refused,1,0\n");
        assert_eq!(terminal.end(0, keys), expected, "{keys:?}");
    }
}

/// With no further key. Backspace is a byte like any other there.
#[test]
fn a_refused_pick_ends_the_run_at_once() {
    let folder = Folder::new("draft", "refused");
    for wrong in [b"a", b"?", b" ", BACKSPACE, b"\t", b"\x1b", b"\xff"] {
        let case = format!("{wrong:?}");
        let mut terminal = behind_picks(&folder, b"ABA");
        terminal.key(wrong);
        assert_eq!(terminal.end(0, &case), "refused,2,5\n", "{case}");
    }
}

/// A whole draft that comes as one. What comes before the first line is dealt with is
/// shown, since the terminal is then in line mode: capital letters and an empty line.
#[test]
fn a_pasted_draft() {
    let folder = Folder::new("draft", "pasted");
    let picks = [repeated(b"AAB", MOST_PICKS), b"\n".to_vec()].concat();
    let mut terminal = at_first_line(&folder);
    terminal.key(&[b"8\n", picks.as_slice()].concat());
    let shown = terminal.end(0, "with the first line");
    let shown = shown.replace(|byte: char| byte.is_ascii_uppercase(), "");
    let lines = shown.lines().filter(|line| !line.is_empty());
    let expected = format!("8\n{}", answers(&picks));
    assert!(lines.eq(expected.lines()), "{shown}");

    let mut terminal = at_picks(&folder);
    terminal.key(&picks);
    assert_eq!(terminal.end(0, "picks alone"), answers(&picks));
}

/// Pick 2,049, and a wrong byte with much behind it, of which the terminal, as before
/// then, may show the last.
#[test]
fn a_pasted_draft_that_is_refused() {
    let folder = Folder::new("draft", "pasted_refused");
    let too_long = repeated(b"AB", MOST_PICKS + 1);
    let wrong = [b"AB?".to_vec(), repeated(b"A", MOST_PICKS)].concat();
    for picks in [too_long, wrong] {
        let mut terminal = at_picks(&folder);
        terminal.key(&picks);
        let shown = terminal.end(0, "refused");
        assert_eq!(shown.trim_end_matches('A'), answers(&picks));
    }
}

/// A signal to the script alone, before the first line and in the picks.
#[test]
fn a_signal_ends_the_script() {
    let folder = Folder::new("draft", "signals");
    assert_signals_end(&folder, [at_first_line, at_picks], |terminal| {
        terminal.command()
    });
}

/// The keys that send a signal to all that the script runs.
#[test]
fn an_interrupting_key_ends_the_script() {
    let folder = Folder::new("draft", "interrupts");
    for (key, signal, shown) in [(CTRL_C, INTERRUPT, "^C"), (CTRL_BACKSLASH, QUIT, "^\\")] {
        let mut terminal = at_first_line(&folder);
        terminal.key(key);
        assert_eq!(terminal.end(128 + signal, shown), shown);

        let mut terminal = behind_picks(&folder, b"AB");
        terminal.key(key);
        assert_eq!(terminal.end(128 + signal, shown), "");
    }
}

/// The status is then a shell's of a killed command.
#[test]
fn a_killed_program_ends_the_script() {
    let folder = Folder::new("draft", "killed");
    for begin in [at_first_line, at_picks] {
        let terminal = begin(&folder);
        send(KILL, terminal.program());
        terminal.end(128 + KILL, "killed");
    }
}

/// A terminal that is closed.
#[test]
fn a_hang_up_ends_the_script() {
    let folder = Folder::new("draft", "hang_up");
    assert_hang_up_ends(&folder, [at_first_line, at_picks]);
}

/// Ctrl-Z: while the script is stopped the terminal is as before; then the first line is
/// keyed as if nothing had been.
#[test]
fn a_script_stopped_in_the_first_line_goes_on() {
    let folder = Folder::new("draft", "stopped_first");
    let mut terminal = at_first_line(&folder);
    terminal.key(CTRL_Z);
    assert_eq!(terminal.stopped("stopped"), "^Z");
    terminal.key(ENTER);
    terminal.shows("\n", "the shell's line");
    terminal.key(b"8\r");
    terminal.shows("8\n", "the first line");
    key_picks(&mut terminal, b"AB");
    terminal.key(ENTER);
    assert_eq!(terminal.end(0, "continued"), "");
}

/// The same in the picks, where each key is handed on again.
#[test]
fn a_script_stopped_in_the_picks_goes_on() {
    let folder = Folder::new("draft", "stopped_picks");
    let mut terminal = behind_picks(&folder, b"A");
    terminal.stop();
    terminal.key(ENTER);
    terminal.shows("\n", "the shell's line");
    terminal.await_keys(true);
    terminal.key(b"B");
    terminal.shows("2,2,1,1\n", "the next pick");
    terminal.key(CTRL_D);
    assert_eq!(terminal.end(0, "continued"), "");
}

/// As a shell ends a stopped job, which does not have the terminal then.
#[test]
fn a_stopped_script_ends() {
    let folder = Folder::new("draft", "stopped_ended");
    assert_stopped_ends(behind_picks(&folder, b"AB"));
}

/// What is keyed while the program is proved and built is shown then, and answered
/// afterwards; Ctrl-D ends the input there too.
#[test]
fn keys_typed_ahead_of_the_program() {
    for (keys, shown, input) in [
        ("8\rABA\r", "8\nABA\n", "8\nABA\n"),
        ("8\rABA\x04", "8\nABA", "8\nABA"),
        ("8\rAB?A\r", "8\nAB?A\n", "8\nAB?A\n"),
        ("9\rABA", "9\nABA", "9\n"),
        ("\x04", "", ""),
    ] {
        let folder = Folder::unbuilt("draft", "ahead");
        let terminal = typed_ahead(&folder, keys, shown);
        let expected = printed(input.as_bytes());
        assert_eq!(terminal.end(0, keys), expected, "{keys:?}");
    }
}

/// Where only the input is a terminal, the output is the program's own.
#[test]
fn output_that_is_no_terminal() {
    let folder = Folder::new("draft", "output");
    let command = ["sh", "-c", "exec ./draft >output"];
    let mut terminal = Terminal::running(&folder, &command);
    terminal.key(b"8\r");
    terminal.shows("8\n", "the first line");
    terminal.await_keys(true);
    terminal.key(b"ABA\r");
    assert_eq!(terminal.end(0, "output"), "");
    let written = read_to_string(folder.path().join("output"));
    assert_eq!(written.expect("the output"), printed(b"8\nABA\n"));
}
