//! The keys that edit a line, and what the terminal then shows of it.

use crate::support::keyed::{finish_second_line, in_second_line, session, Watched, PROMPT, WIDTH};
use crate::support::keys::{ENTER, ESCAPE};
use crate::support::screen::Screen;
use crate::support::script_folder::Folder;
use std::thread::sleep;
use std::time::Duration;

/// Each key by each of its byte sequences, and the line before and after it, which has `_` where
/// the cursor is.
const EDITS: [(&[&str], &str, &str); 16] = [
    (&["\x08", "\x7f"], "lift AB_", "lift A_"),
    (&["\x1b[D", "\x1bOD", "\x02"], "lift A_", "lift _A"),
    (
        &["\x1b[H", "\x1bOH", "\x1b[1~", "\x1b[7~", "\x01"],
        "lift A_",
        "_lift A",
    ),
    (&["\x1b[C", "\x1bOC", "\x06"], "_lift A", "l_ift A"),
    (
        &["\x1b[F", "\x1bOF", "\x1b[4~", "\x1b[8~", "\x05"],
        "_lift A",
        "lift A_",
    ),
    (&["\x1b[3~", "\x04"], "lift _BA", "lift _A"),
    (&["\x15"], "start 8_lift A", "_lift A"),
    (&["\x0b"], "lift A_ and more", "lift A_"),
    (&["\x17"], "show ABC  one  _1 3", "show ABC  _1 3"),
    (&["\x17"], "word_lift A", "_lift A"),
    (&["\t"], "lift_A", "lift _A"),
    (&["\x0c"], "li_ft A", "li_ft A"),
    (&["B"], "lift _", "lift B_"),
    (&["\u{e9}"], "lift _", "lift \u{e9}_"),
    (&["\x7f", "\x1b[D\x1b[3~"], "lift \u{e9}_A", "lift _A"),
    (
        &["\x1b[C\x1b[C\x1b[D"],
        "show _\u{e9}\u{e9}A 1 5",
        "show \u{e9}_\u{e9}A 1 5",
    ),
];

/// Each key by each of its byte sequences, one after the other at one terminal: the line
/// and the cursor's place before and after it.
#[test]
fn editing_keys() {
    let folder = Folder::new("board", "editing");
    let mut watched = Watched::new(&folder, None);
    for (keys, before, after) in EDITS {
        for keys in keys {
            let (left, right) = before.split_once('_').expect("a cursor");
            let moves = b"\x1b[D".repeat(right.chars().count());
            watched.key(
                &[left.as_bytes(), right.as_bytes(), &moves].concat(),
                before,
            );
            watched.key(keys.as_bytes(), after);
            watched.enter(&after.replace('_', ""));
        }
    }
}

/// Ctrl-L leaves the line alone on the screen.
#[test]
fn the_screen_is_emptied() {
    let folder = Folder::new("board", "emptied");
    let mut terminal = in_second_line(&folder);
    let before = format!("{PROMPT}{}lift", session(b"start 8"));
    terminal.key(b"\x0c");
    terminal.read_until("Ctrl-L", |shown| {
        Screen::of(&format!("{before}{shown}"), WIDTH).rows() == ["> lift"]
    });
    finish_second_line(&mut terminal);
}

/// At the line's ends, where there is nothing to go to and nothing to cut.
#[test]
fn editing_keys_that_change_nothing() {
    let folder = Folder::new("board", "unchanged");
    let mut watched = Watched::new(&folder, None);
    for keys in [
        "\x7f", "\x15", "\x17", "\x02", "\x1b[D", "\x01", "\x1b[B", "\0", "\x07", "\x1f",
    ] {
        watched.key(&[b"lift A\x01", keys.as_bytes()].concat(), "_lift A");
        watched.enter("lift A");
    }
    for keys in [
        "\x04", "\x0b", "\x1b[3~", "\x06", "\x1b[C", "\x05", "\x1b[B", "\0",
    ] {
        watched.key(&[b"lift A", keys.as_bytes()].concat(), "lift A_");
        watched.enter("lift A");
    }
}

/// In the middle of a line, and the key Escape alone. What comes with a sequence at once
/// and what comes much later count.
#[test]
fn unknown_escape_sequences() {
    let folder = Folder::new("board", "sequences");
    let mut watched = Watched::new(&folder, None);
    for sequence in [
        "[Z", "[2~", "[15~", "[1;5C", "[1;2A", "[[A", "[200~", "[?1;2c", "OP", "O5P", "x",
        "\x1b[Z", "\x7f",
    ] {
        let keys = [b"lif", ESCAPE, sequence.as_bytes(), b"t A"].concat();
        watched.key(&keys, "lift A_");
        watched.enter("lift A");
    }
    watched.key(b"lift\x1b[1\x01\x1b[4", "_lift");
    sleep(Duration::from_millis(500));
    watched.key(b"x", "x_lift");
    watched.key(b"\x7f\x05\x1b", "lift_");
    sleep(Duration::from_millis(500));
    watched.key(b" A", "lift A_");
    watched.enter("lift A");
}

/// Lines keyed before, and back to the one that was begun.
#[test]
fn earlier_lines() {
    let folder = Folder::new("board", "earlier");
    for (up, down) in [("\x1b[A", "\x1b[B"), ("\x1bOA", "\x1bOB"), ("\x10", "\x0e")] {
        let (up, down) = (up.as_bytes(), down.as_bytes());
        let mut watched = Watched::at_prompt(&folder, None);
        watched.key(&[up, down].concat(), "_");
        for line in ["start 8", "lift A", "lift B", "lift B", "lift C"] {
            watched.key(line.as_bytes(), &format!("{line}_"));
            watched.enter(line);
        }
        watched.key(b"begun", "begun_");
        for (key, line) in [
            (up, "lift C"),
            (up, "lift B"),
            (down, "lift C"),
            (down, "begun"),
            (down, "begun"),
            (up, "lift C"),
            (up, "lift B"),
            (up, "lift A"),
            (up, "start 8"),
            (up, "start 8"),
            (down, "lift A"),
        ] {
            watched.key(key, &format!("{line}_"));
        }
        watched.enter("lift A");
        watched.key(&[b"lift D\r", up, up, b"\x7fE"].concat(), "lift E_");
        watched.enter("lift E");
        watched.key(&up.repeat(3), "lift A_");
    }
}

/// Enter on a line of none, which is not kept.
#[test]
fn empty_lines() {
    let folder = Folder::new("board", "empty");
    let mut watched = Watched::new(&folder, None);
    watched.key(b"lift A", "lift A_");
    watched.enter("lift A");
    watched.key(ENTER, "_");
    watched.key(b"\x1b[A", "lift A_");
    watched.enter("lift A");
}

/// A part of the line around the cursor is shown, and the whole line when it is closed.
#[test]
fn a_line_wider_than_the_terminal() {
    let folder = Folder::new("board", "wide");
    let mut watched = Watched::new(&folder, Some(20));
    let line = "show ABCDEFGHIJKLMNOPQRSTUVWXYZ 2 7 26";
    watched.key(&line.as_bytes()[..17], "show ABCDEFGHIJKL_");
    watched.key(b"M", "EFGHIJKLM_");
    watched.key(&line.as_bytes()[18..], "WXYZ 2 7 26_");
    watched.key(b"\x01", "_show ABCDEFGHIJKL");
    watched.key(&b"\x06".repeat(17), "show ABCDEFGHIJKL_");
    watched.key(b"\x06", "EFGHIJKLM_NOPQRSTU");
    watched.key(b"X", "EFGHIJKLMX_NOPQRST");
    watched.key(b"\x7f", "EFGHIJKLM_NOPQRSTU");
    watched.enter(line);
}

/// 80 columns: two for the prompt, one for the cursor behind the line.
#[test]
fn a_terminal_that_names_no_width() {
    let folder = Folder::new("board", "no_width");
    let mut watched = Watched::new(&folder, None);
    let line = format!("show {} 1 67", "A".repeat(67));
    watched.key(line.as_bytes(), &format!("{line}_"));
    watched.key(b" ", &format!("{} _", &line[39..]));
    watched.enter(&format!("{line} "));
}
