//! Each call by its function in include/board.h, in C with the sanitizers and in C++,
//! against the console as a function with `--all`. Every list and output has just the
//! size that is asked for.

use crate::support::c_program::program;
use comparison::full_drafts::of_each_kind;
use comparison::records::{fields_of, record_of};
use comparison::samples::Generator;
use comparison::spoken::text_of;
use comparison::support::answered::{self, accepted, assert_all_accepted};
use comparison::support::call_lines::{session, some_call};
use comparison::support::far_places::assert_far_are_not_cut;
use comparison::support::lines::{feeds, load};
use comparison::support::mark_lines::{
    assert_every_count, assert_every_length, assert_every_name, assert_full_drafts,
};
use comparison::support::next_lines::assert_every_centre;
use comparison::support::transcript::assert_session;
use comparison::support::turn_lines::assert_turn_counts;
use comparison::MOST_PICKS;
use std::path::{Path, PathBuf};
use std::process::Command;
use std::sync::LazyLock;

/// The program that makes the calls.
const SOURCE: &str = "c/spoken.c";

/// The calls in C, with the sanitizers, and with a function before each of the library's
/// that takes no null pointer and no slice beyond its memory.
static IN_C: LazyLock<PathBuf> = LazyLock::new(|| {
    let sanitized = "gcc -std=c11 -O1 -g -fsanitize=address,undefined -fno-sanitize-recover";
    let wraps = ["drive", "drive_show", "drive_unfold", "drive_section"]
        .map(|function| format!("-Wl,--wrap={function}"))
        .join(" ");
    program(
        &format!("{sanitized} {wraps} c/not_null.c"),
        SOURCE,
        "header_calls_c",
    )
});

/// Runs the program on the lines; it answers what the function answers. Gives the
/// answers.
fn compare(program: &Path, input: &str) -> Vec<String> {
    answered::compare(Command::new(program), true, input.as_bytes())
}

/// Each call with document 01's worked examples, with a mill's own lifts, and with marks, in
/// C and in C++.
#[test]
fn the_worked_examples() {
    let in_cpp = program("g++ -x c++ -std=c++11 -O1", SOURCE, "header_calls_cpp");
    for session in [
        include_str!("sessions/header.txt"),
        include_str!("sessions/header_lifts.txt"),
        include_str!("sessions/header_marks.txt"),
    ] {
        assert_session(session, |input| compare(&IN_C, input));
        assert_session(session, |input| compare(&in_cpp, input));
    }
}

/// Random sessions, arguments beyond the script's fields among them.
#[test]
fn random_sessions() {
    let generator = &mut Generator(91);
    let mut count = 0;
    for _ in 0..150 {
        let opening = match generator.below(8) {
            0 => "longest".to_string(),
            _ => format!("start {}", 1 + generator.below(8)),
        };
        let input = session(&opening, 60, |n| some_call(generator, n));
        count += accepted(&compare(&IN_C, &input));
    }
    assert!(count > 4_000, "{count} calls are accepted");
}

/// Numbers beyond a byte, two bytes and four, and the last of eight bytes.
fn far(number: u128) -> [String; 4] {
    let last = u128::from(u64::MAX) - 255;
    [1 << 8, 1 << 16, 1 << 32, last].map(|beyond| (beyond + number).to_string())
}

/// Arguments beyond the script's fields, which would be good where they are cut.
#[test]
fn arguments_beyond_the_fields() {
    let opening = format!("start 8\n{}", feeds(b"ABACDDC"));
    assert_far_are_not_cut(&opening, far, |input| compare(&IN_C, input));
    let mut input = opening;
    for far in far(0) {
        input += &format!("split 7 2 {far}\nrecord 7 2 {far}\nfeed 65 {far}\n");
        input += &format!("unfold 7,2,3,AB,4,CD\\n {far}\n");
    }
    let answers = compare(&IN_C, &input);
    assert_all_accepted(&answers, "calls that are lent very much");
}

/// Tables that would be 26 bytes where their count is cut to a byte or two, and that are
/// longer than the script's field can say: 14 in its order, behind 7 and before 15 and 16.
#[test]
fn tables_beyond_the_field() {
    let far = [26 + (1 << 8), (1 << 16) - 1, 1 << 16, 26 + (1 << 16)];
    let loads = far.map(|count| load(&vec![1; count]) + &load(&vec![0; count]));
    let loads = loads.concat();
    let answers = compare(&IN_C, &format!("{loads}start 8\n{loads}feed 65\n{loads}"));
    let refused = |number: &str| vec![format!("refused {number}"); 8];
    assert_eq!(answers[..8], refused("7"), "on no draft");
    assert_eq!(answers[9..17], refused("14"), "on an empty draft");
    assert_eq!(answers[18..], refused("14"), "behind a pick");
}

/// Every count of bytes around 26, every place of a 0, and every byte as a lift.
#[test]
fn every_place_of_a_table() {
    let counts = (0..=40).map(|count| load(&vec![7; count]));
    let zeros = (0..26).flat_map(|place| {
        let mut table = [7; 26];
        table[place] = 0;
        let one = load(&table);
        table[place..].fill(0);
        [one, load(&table)]
    });
    let lifts = (1..=255).map(|byte| load(&[byte; 26]) + "lift 65\nlift 90\n");
    let lines: String = counts.chain(zeros).chain(lifts).collect();
    let answers = compare(&IN_C, &format!("start 8\n{lines}"));
    let accepted = answers.iter().filter(|answer| *answer == "ok").count();
    assert_eq!(accepted, 1 + 1 + 255, "loads and a start are accepted");
}

/// Every byte as a name, and every number of marks.
#[test]
fn names_of_marks() {
    assert_every_name(|input| compare(&IN_C, input));
    assert_every_count(|input| compare(&IN_C, input));
}

/// From every length of a draft to every mark, and in full drafts.
#[test]
fn backs_to_every_length() {
    assert_every_length(|input| compare(&IN_C, input));
    assert_full_drafts(|input| compare(&IN_C, input));
}

/// The next shorter ending, and the length and the least period of the one given, at every
/// centre of many drafts.
#[test]
fn next_endings_at_every_centre() {
    assert_every_centre(feeds, |input| compare(&IN_C, input));
}

/// Sections of one pick, of two and of more.
#[test]
fn turn_counts() {
    assert_turn_counts(feeds, |input| compare(&IN_C, input));
}

/// Drafts of 2,048 picks and one more, with calls behind them.
#[test]
fn full_drafts() {
    let generator = &mut Generator(92);
    for (_, draft) in of_each_kind().into_iter().step_by(9) {
        let opening = format!("start 8\n{}", feeds(&draft));
        let input = session(&opening, 60, |n| some_call(generator, n));
        let answers = compare(&IN_C, &format!("{input}feed 65\n"));
        let taken = answers[MOST_PICKS].starts_with("ok ");
        assert!(taken, "pick 2,048: {}", answers[MOST_PICKS]);
    }
}

/// Records of 2,048 picks.
#[test]
fn full_records() {
    for lengths in [&[MOST_PICKS][..], &[1, 1, 1, 1, 1, 1, 1, 2_041]] {
        let record = text_of(&record_of(&fields_of(lengths)));
        let input = format!("unfold {record}\nunfold {record} 2047\nsection {record} 0\n");
        let answers = compare(&IN_C, &input);
        assert!(answers[0].starts_with("ok 2048 | "), "{}", answers[0]);
    }
}

/// Over a library that has none of the calls no function of the header is accepted.
#[test]
fn a_library_without_the_calls() {
    let path = program("gcc -std=c11", "c/no_calls.c", "header_calls_none");
    let output = Command::new(path).output().expect("the program runs");
    let expected = [
        "start 255",
        "load 255 0",
        "feed 255 0 0",
        "mark 255",
        "back 255",
        "mask 255 0",
        "radius 255 0",
        "longest 255 0",
        "next 255 0 0 0",
        "split 255 0",
        "record 255 0",
        "lift 255 0",
        "unfold 255 0 0",
        "section 0 0 0 4",
        "",
    ];
    let printed = String::from_utf8_lossy(&output.stdout);
    assert_eq!(printed, expected.join("\n"));
}
