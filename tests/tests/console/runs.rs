//! Random sessions of the console against the console as a function, good and bad
//! arguments and lines that are no call mixed, with `--all` and without.

use crate::support::refusals::refusals;
use comparison::full_drafts::of_each_kind;
use comparison::samples::Generator;
use comparison::support::call_lines::{session, some_call};
use comparison::support::console::compare;
use comparison::MOST_PICKS;

/// Lines that are no call.
const NO_CALLS: [&str; 12] = [
    "",
    "feed",
    "feed AB",
    "Mask 1",
    "split 1",
    "mask -1",
    r"picks A\q",
    "peek rows 2049",
    "load 1 256",
    "load A",
    "mark",
    "back AB",
];

/// Names as characters, of which more than four are good.
const NAMES: [&str; 9] = ["A", "B", "C", "D", "E", "F", "Z", "a", "@"];

/// A line of some call, some of them as only the console takes them.
fn some_line(generator: &mut Generator, n: usize) -> String {
    let call = some_call(generator, n);
    match generator.below(28) {
        0 => some_picks(generator),
        1 => "numbers".to_string(),
        2 => {
            let name = ["letters", "codes", "lifts", "marks"][generator.below(4)];
            format!("peek {name} {}", generator.below(n + 2))
        }
        3 => NO_CALLS[generator.below(NO_CALLS.len())].to_string(),
        4 => format!("\t{}  \r", call.replace(' ', "\t ")),
        5 => format!("{call}000000000000000000000"),
        6 => format!("{call} 18446744073709551617"),
        7..=10 => format!("feed {}", ["A", "B", "A", "b", "?"][generator.below(5)]),
        11..=13 => format!("mark {}", NAMES[generator.below(NAMES.len())]),
        14 => format!("back {}", NAMES[generator.below(NAMES.len())]),
        _ => call,
    }
}

/// Some picks, all good but for one now and then.
fn some_picks(generator: &mut Generator) -> String {
    let count = 1 + generator.below(6);
    let letters = String::from_utf8(generator.draft(2, count)).expect("letters");
    match generator.below(8) {
        0 => "picks -".to_string(),
        1 => format!("picks {letters}-"),
        2 => format!(r"picks {letters}\x41\x0a\n"),
        _ => format!("picks {letters}"),
    }
}

/// 600 sessions of 60 lines. Each number but 8 must be among the answers often, and so
/// must be accepted calls.
#[test]
fn random_sessions() {
    let generator = &mut Generator(61);
    let mut answers = Vec::new();
    for at in 0..600 {
        let all = at % 2 == 0;
        let opening = match generator.below(8) {
            0 => String::new(),
            _ => format!("start {}", 1 + generator.below(8)),
        };
        let input = session(&opening, 60, |n| some_line(generator, n));
        answers.extend(compare(all, input));
    }
    let [accepted, refused @ ..] = refusals(&answers);
    assert!(accepted > 6_000, "{accepted} are accepted");
    for (at, times) in refused.into_iter().enumerate() {
        let number = at + 1;
        let often = number == 8 || times > 60;
        assert!(often, "number {number} is given {times} times");
    }
}

/// Sessions on drafts of 2,048 picks and some picks fewer, which go on to a full draft.
#[test]
fn sessions_at_a_full_draft() {
    let generator = &mut Generator(62);
    let mut answers = Vec::new();
    for (at, (_, draft)) in of_each_kind().into_iter().step_by(3).enumerate() {
        let all = at % 2 == 0;
        let length = MOST_PICKS - [0, 3, 12][at % 3];
        let picks = String::from_utf8(draft[..length].to_vec()).expect("letters");
        let opening = format!("start {}\npicks {picks}", 1 + at % 8);
        let input = session(&opening, 60, |n| some_line(generator, n));
        answers.extend(compare(all, input));
    }
    let times = refusals(&answers);
    assert!(times[8] > 30, "number 8 is given {} times", times[8]);
}
