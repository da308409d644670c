//! How the console reads from a pipe and answers: each line before the next one, lines in
//! parts, two consoles at once, and how many calls a second.

use comparison::samples::Generator;
use comparison::spoken::Console;
use comparison::support::answered::assert_answered;
use comparison::support::console::{compare, console};
use comparison::support::process::Process;
use std::io::Write;
use std::process::ChildStdin;
use std::thread::sleep;
use std::time::{Duration, Instant};

/// A console with an open pipe as its standard input.
fn running(all: bool) -> (Process, ChildStdin) {
    Process::on_pipe(console(all))
}

/// Asserts that this is the next answer.
fn assert_next(process: &mut Process, answer: &str) {
    let line = process.next_line(answer);
    let line = line.map(|line| String::from_utf8_lossy(&line).into_owned());
    assert_eq!(line, Some(format!("{answer}\n")));
}

/// Lines of each kind of answer.
const LINES: [&str; 18] = [
    "numbers",
    "start 8",
    "feed A",
    "mark M",
    "picks BAB",
    "split 4 4",
    "nothing",
    "show AB 1 1 2",
    r"section 1,1,1,A\n 0",
    "unfold 7x",
    "picks -",
    "longest",
    "back M",
    "numbers",
    "back N",
    "help",
    "poke rows 0 2",
    "quit",
];

/// Each line is answered before the next one is written; the input stays open, also
/// behind `quit`.
#[test]
fn each_line_is_answered_at_once() {
    for all in [false, true] {
        let mut expected = Console::new(all);
        let (mut process, mut input) = running(all);
        for line in LINES {
            writeln!(input, "{line}").expect("an open pipe");
            for expected in expected.answers(line.as_bytes()) {
                let answer = process.next_line(line).expect("an answer");
                let answer = String::from_utf8_lossy(&answer).into_owned();
                let whole = answer.strip_suffix('\n');
                let is_given = whole.is_some_and(|answer| expected.is(answer));
                assert!(is_given, "{answer:?}, not {expected:?}: {line}");
            }
        }
        let (rest, status) = process.end("quit");
        assert_eq!((rest.as_str(), status.code()), ("", Some(0)));
        drop(input);
    }
}

/// A line that comes in parts is one line.
#[test]
fn a_line_in_parts() {
    let (mut process, mut input) = running(false);
    for part in ["sta", "rt", " ", "8\nfe", "ed", " A\nlon"] {
        input.write_all(part.as_bytes()).expect("an open pipe");
        sleep(Duration::from_millis(5));
    }
    assert_next(&mut process, "ok");
    assert_next(&mut process, "ok 1 1 | 1");
    input.write_all(b"gest").expect("an open pipe");
    drop(input);
    let (rest, status) = process.end("longest");
    assert_eq!((rest.as_str(), status.code()), ("ok 2\n", Some(0)));
}

/// Two consoles at once do not disturb each other.
#[test]
fn two_consoles_at_once() {
    let (mut process, mut input) = running(false);
    input.write_all(b"start 3\nfeed A\n").expect("an open pipe");
    assert_next(&mut process, "ok");
    assert_next(&mut process, "ok 1 1 | 1");
    assert_eq!(compare(false, "numbers\nstart 8\n"), ["ok 0 0 0", "ok"]);
    input.write_all(b"numbers\n").expect("an open pipe");
    assert_next(&mut process, "ok 1 3 2");
}

/// So many calls: feeds, masks and splits of a growing draft, and a start now and then.
fn many_calls(count: usize) -> String {
    let generator = &mut Generator(81);
    let mut input = String::new();
    let mut n = 0;
    for at in 0..count {
        input += &match (at % 6_000, at % 3) {
            (0, _) => {
                n = 0;
                "start 8\n".to_string()
            }
            (_, 0) => format!("mask {}\n", generator.below(n + 1)),
            (_, 1) => {
                n += 1;
                format!("feed {}\n", ["A", "B"][generator.below(2)])
            }
            _ => format!("split {n} {}\n", 1 + generator.below(8)),
        };
    }
    input
}

/// 30,000 calls through a pipe, at more than 10,000 a second.
#[test]
fn thirty_thousand_calls() {
    let input = many_calls(30_000);
    let (process, mut pipe) = running(false);
    let begun = Instant::now();
    pipe.write_all(input.as_bytes()).expect("an open pipe");
    drop(pipe);
    let (answers, _) = process.end("30,000 calls");
    let taken = begun.elapsed();
    assert!(taken < Duration::from_secs(3), "they took {taken:?}");
    let answers: Vec<String> = answers.lines().map(String::from).collect();
    assert_eq!(answers.len(), 30_000);
    assert_answered(false, input.as_bytes(), &answers);
}
