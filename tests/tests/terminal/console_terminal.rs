//! The script `board` at a terminal: what is shown, and how it ends. The keys that edit a
//! line are in `editing`, signals and jobs in `jobs`.

mod editing;
mod jobs;

use crate::support::jobs::typed_ahead;
use crate::support::keyed::{
    answers, at_prompt, at_prompt_of, end_by_ctrl_d, finish_second_line, session, PROMPT, WIDTH,
};
use crate::support::keys::CTRL_D;
use crate::support::screen::Screen;
use crate::support::script_folder::Folder;
use crate::support::terminal::Terminal;
use comparison::samples::{repeated, Generator};
use comparison::MOST_PICKS;
use std::fs::read_to_string;

/// Each byte is shown as it is keyed, and each line stays above its answer.
#[test]
fn lines_are_shown_and_answered() {
    let folder = Folder::new("board", "lines");
    let lines = b"mask 0\nstart 8\nfeed A\npicks BAB\nsplit 4 2\nrecord 4 2\nlift Z\n";
    let mut terminal = at_prompt(&folder);
    let mut shown = session(lines);
    for &byte in lines {
        terminal.key(&[byte]);
        let end = match byte {
            b'\n' => shown.find(PROMPT).expect("one more prompt") + PROMPT.len(),
            _ => 1,
        };
        let rest = shown.split_off(end);
        terminal.shows(&shown, &format!("{:?}", char::from(byte)));
        shown = rest;
    }
    assert_eq!(shown, "");
    end_by_ctrl_d(terminal, "Ctrl-D");
}

/// All lines of a session come as one.
#[test]
fn a_pasted_session() {
    let folder = Folder::new("board", "pasted");
    let mut lines = b"start 8\n".to_vec();
    for pick in Generator(7).draft(2, 60) {
        let pick = char::from(pick);
        lines.extend(format!("feed {pick}\nlongest\nlift {pick}\n").bytes());
    }
    lines.extend(b"split 60 8\nrecord 60 4\nfeed a\nfeed A 18\nnumbers\n");
    let mut terminal = at_prompt(&folder);
    terminal.key(&lines);
    terminal.shows(&session(&lines), "the session");
    end_by_ctrl_d(terminal, "pasted");
}

/// A whole draft in one line, which fills many rows of the screen, and each answer.
#[test]
fn a_pasted_draft() {
    let folder = Folder::new("board", "draft");
    let picks = repeated(b"AAB", MOST_PICKS);
    let lines = [b"start 8\npicks ", picks.as_slice(), b"\n"].concat();
    let mut terminal = at_prompt(&folder);
    terminal.key(&lines);
    let last = answers(&lines).pop().expect("the answers to the picks");
    let end = format!("{}{PROMPT}", &last[last.len() - 100..]);
    let shown = terminal.read_until("the draft", |shown| shown.ends_with(&end));
    let rows = Screen::of(&format!("{PROMPT}{shown}"), WIDTH).rows();
    let expected = Screen::of(&format!("{PROMPT}{}", session(&lines)), WIDTH).rows();
    assert_eq!(rows, expected);
    terminal.key(b"quit\r");
    assert_eq!(terminal.end(0, "quit"), "quit\nok\n");
}

/// At once, and behind lines that were answered.
#[test]
fn ctrl_d_and_quit_end_the_console() {
    let folder = Folder::new("board", "ends");
    for lines in ["", "start 8\n", "start 8\nlift A\nnumbers\n"] {
        for (last, shown) in [("\x04", "\n"), ("\0", "\n"), ("quit\r", "quit\nok\n")] {
            let mut terminal = at_prompt(&folder);
            terminal.key(lines.as_bytes());
            terminal.shows(&session(lines.as_bytes()), lines);
            terminal.key(last.as_bytes());
            assert_eq!(terminal.end(0, lines), shown, "{lines:?}");
        }
    }
}

/// It is left to the shell, as in line mode.
#[test]
fn what_is_keyed_behind_quit() {
    let folder = Folder::new("board", "behind");
    for (last, shown) in [("\x04", "\n"), ("quit\r", "quit\nok\n")] {
        let mut terminal = at_prompt(&folder);
        terminal.key(format!("{last}echo behind; false\r").as_bytes());
        terminal.shows(&format!("{shown}status 0\nbehind\n"), shown);
        assert_eq!(terminal.end(1, "the shell's line"), "");
    }
}

/// What is keyed while the console is built is shown then, in line mode, and answered
/// afterwards; Ctrl-D ends the input there too.
#[test]
fn lines_typed_ahead_of_the_console() {
    for (keys, lines, last) in [
        ("start 8\rfeed A\rquit\r", "start 8\nfeed A\n", "quit\nok\n"),
        ("start 8\rfeed A\r\x04", "start 8\nfeed A\n", "\n"),
        ("\x04", "", "\n"),
    ] {
        let folder = Folder::unbuilt("board", "ahead");
        let shown = keys.replace('\r', "\n").replace('\x04', "");
        let terminal = typed_ahead(&folder, keys, &shown);
        let expected = format!("{PROMPT}{}{last}", session(lines.as_bytes()));
        assert_eq!(terminal.end(0, keys), expected, "{keys:?}");
    }
}

/// A line that is begun in line mode is closed in key-by-key mode.
#[test]
fn a_line_begun_ahead_of_the_console() {
    let folder = Folder::unbuilt("board", "begun");
    let mut terminal = typed_ahead(&folder, "start 8\rlift", "start 8\nlift");
    terminal.shows(
        &format!("{PROMPT}{}lift", session(b"start 8")),
        "both lines",
    );
    finish_second_line(&mut terminal);
    end_by_ctrl_d(terminal, "begun ahead");
}

/// Where standard output is a file, the answers are there and all else is shown.
#[test]
fn output_that_is_no_terminal() {
    let folder = Folder::new("board", "output");
    let mut terminal = at_prompt_of(&folder, &["sh", "-c", "exec ./board >output"]);
    terminal.key(b"start 8\rfeed A\r\x1b[A\rquit\r");
    let shown = terminal.end(0, "output");
    let rows = Screen::of(&format!("{PROMPT}{shown}"), WIDTH).rows();
    assert_eq!(rows, ["> start 8", "> feed A", "> feed A", "> quit", ""]);
    let written = read_to_string(folder.path().join("output"));
    let expected = answers(b"start 8\nfeed A\nfeed A\nquit\n").concat();
    assert_eq!(written.expect("the output"), expected);
}

/// Where standard error is a file, the terminal stays in line mode: no prompt is shown.
#[test]
fn errors_that_go_to_no_terminal() {
    let folder = Folder::new("board", "errors");
    let mut terminal = Terminal::running(&folder, &["sh", "-c", "exec ./board 2>errors"]);
    terminal.key(b"start 8\r");
    terminal.shows("start 8\nok\n", "line mode");
    terminal.key(b"lift C\x7fA\r");
    terminal.shows("lift C\x08 \x08A\nok 3\n", "line mode");
    terminal.key(CTRL_D);
    assert_eq!(terminal.end(0, "errors"), "");
    let written = read_to_string(folder.path().join("errors"));
    assert_eq!(written.expect("the errors"), "");
}
