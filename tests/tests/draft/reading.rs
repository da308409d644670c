//! How the draft program's executable reads: it answers each pick as soon as it is
//! read, ends where it stops, and reads nothing past that.

use comparison::draft::run;
use comparison::samples::{repeated, Generator};
use comparison::support::draft_process::{draft, on_shared_file, on_shared_pipe, printed_on};
use comparison::support::own_name::own_name;
use comparison::support::process::Process;
use comparison::MOST_PICKS;
use std::fs::remove_file;
use std::io::Write;
use std::path::Path;

/// The lines that the function prints on the input, byte 10 included.
fn lines_of(input: &[u8]) -> Vec<Vec<u8>> {
    let output = run(input).output;
    output
        .split_inclusive(|&byte| byte == 10)
        .map(<[u8]>::to_vec)
        .collect()
}

/// Writes the first line and the first pick, then each further byte only when the
/// line of the one before is there. The input stays open to the end.
fn compare_byte_by_byte(input: &[u8]) {
    let case = format!("input {:?}", String::from_utf8_lossy(input));
    let lines = lines_of(input);
    let (mut process, mut pipe) = Process::on_pipe(draft());
    pipe.write_all(&input[..2]).expect("an open pipe");
    let header = lines.first().cloned();
    let mut header_is_due = true;
    for (at, &byte) in input[2..].iter().enumerate() {
        pipe.write_all(&[byte]).expect("an open pipe");
        if std::mem::take(&mut header_is_due) {
            assert_eq!(process.next_line(&case), header, "{case}");
        }
        if let Some(line) = lines.get(at + 1) {
            let given = process.next_line(&case);
            assert_eq!(given.as_ref(), Some(line), "line of byte {at}, {case}");
        }
    }
    assert_eq!(process.rest(&case), "", "{case}");
    drop(pipe);
}

/// Each run here ends by a closing byte 10, with the input still open.
#[test]
fn each_pick_is_answered_at_once() {
    compare_byte_by_byte(b"8\nABABABA\n");
    compare_byte_by_byte(b"3\nAAAAAAAAAAAAAAAAAAAA\n");
    let mut long = b"8\n".to_vec();
    long.extend(Generator(3).draft(2, 300));
    long.push(10);
    compare_byte_by_byte(&long);
}

/// A refusal ends the run, with the input still open: of a pick, and of pick 2,049.
#[test]
fn a_refusal_ends_the_run_at_once() {
    compare_byte_by_byte(b"8\nABA?");
    compare_byte_by_byte(b"8\n\0");
    let mut full = b"8\n".to_vec();
    full.extend(repeated(b"AAB", MOST_PICKS + 1));
    compare_byte_by_byte(&full);
}

/// So does a first line that is refused, once it is closed.
#[test]
fn a_refused_first_line_ends_the_run() {
    for line in ["0\n", "9\n", "A\n", "\n\n", "88\n", "8A\n"] {
        let (process, mut pipe) = Process::on_pipe(draft());
        pipe.write_all(line.as_bytes()).expect("an open pipe");
        let printed = process.rest(line);
        assert_eq!(
            printed, "picks,mask,visits,longest\nrefused,1,0\n",
            "{line:?}"
        );
        drop(pipe);
    }
}

/// Inputs with a good first line, and more after the byte that ends the run.
fn inputs() -> Vec<Vec<u8>> {
    let mut full = b"8\n".to_vec();
    full.extend(repeated(b"AAB", MOST_PICKS));
    let full_and = |more: &[u8]| [full.as_slice(), more].concat();
    vec![
        b"8\nABABABA\nmore after it\n".to_vec(),
        b"8\n\nABA\n".to_vec(),
        b"1\nAB\n\n\n".to_vec(),
        b"8\nAB?BA\nmore\n".to_vec(),
        b"8\nABA".to_vec(),
        full_and(b"\nAB\n"),
        full_and(b"AB\n"),
        full_and(b"ab\n"),
    ]
}

/// The program and the test share one place in a file: after the run it is behind the
/// byte that ended it.
#[test]
fn nothing_more_of_a_file_is_read() {
    let path = Path::new(env!("CARGO_TARGET_TMPDIR")).join(own_name("draft_reading_input"));
    for input in inputs() {
        let expected = run(&input);
        let case = format!("input {:?}", String::from_utf8_lossy(&input));
        let (printed, place) = on_shared_file(draft(), &path, &input, &case);
        assert_eq!(printed.as_bytes(), expected.output, "{case}");
        assert_eq!(place, expected.read as u64, "bytes read, {case}");
    }
    remove_file(&path).expect("that file");
}

/// What is left in a pipe is what stands behind the byte that ended the run.
#[test]
fn nothing_more_of_a_pipe_is_read() {
    for input in inputs() {
        let case = format!("input {:?}", String::from_utf8_lossy(&input));
        let (printed, left) = on_shared_pipe(draft(), &input, &case);
        let expected = run(&input);
        assert_eq!(printed.as_bytes(), expected.output, "{case}");
        assert_eq!(left, input[expected.read..], "bytes left, {case}");
    }
}

/// Two programs at once do not disturb each other.
#[test]
fn two_programs_at_once() {
    let (mut process, mut pipe) = Process::on_pipe(draft());
    pipe.write_all(b"8\nAB").expect("an open pipe");
    let mut lines = lines_of(b"8\nABA\n").into_iter();
    for line in lines.by_ref().take(3) {
        assert_eq!(process.next_line("first"), Some(line));
    }
    let other = printed_on(b"2\nZZZ\n", "second");
    assert_eq!(other.into_bytes(), run(b"2\nZZZ\n").output);
    pipe.write_all(b"A\n").expect("an open pipe");
    assert_eq!(process.next_line("first"), lines.next());
    assert_eq!(process.rest("first"), "");
}
