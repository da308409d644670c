//! The stored state through the console: the numbers, every array by its name, and calls
//! on states that no run made.

mod marks;

use crate::support::refusals::refusals;
use comparison::library::{Board, GATHERED, HEADS, LENDS, NEXT, PREV, RADIUS, ROWS};
use comparison::plain::{fixed_lifts, word};
use comparison::samples::Generator;
use comparison::spoken::{Array, ARRAYS};
use comparison::structured::broken_cubes;
use comparison::support::answered::assert_all_accepted;
use comparison::support::call_lines::{session, some_call};
use comparison::support::console::{compare, compare_session};
use comparison::{LETTERS, MOST_PICKS, MOST_SECTIONS};
use std::collections::BTreeSet;

/// A peek of each entry of each array up to the given index.
fn peeks_to(last: usize) -> String {
    let peeks = |array: &'static Array| {
        let indexes = 0..=last.min(array.length - 1);
        indexes.map(|index| format!("peek {} {index}\n", array.name))
    };
    ARRAYS.iter().flat_map(peeks).collect()
}

/// Some indexes of an array: the first, the last, and those where another array ends.
fn sample(array: &Array) -> BTreeSet<usize> {
    let ends = ARRAYS
        .iter()
        .flat_map(|other| [other.length - 1, other.length]);
    ends.chain([0, 1, 2, 255, 256, array.length / 3])
        .filter(|&index| index < array.length)
        .collect()
}

/// The first and the last entry of each array, and the one past it; the least and the
/// largest number of its type, and one past that.
#[test]
fn lengths_and_types() {
    compare_session(false, include_str!("sessions/lengths.txt"));
    compare_session(false, include_str!("sessions/largest.txt"));
    for Array {
        name,
        length,
        largest,
    } in &ARRAYS
    {
        let word = "18446744073709551616";
        let past = u32::from(*largest) + 1;
        let mut input = String::new();
        for index in [length.to_string(), "65536".into(), word.into(), "-1".into()] {
            input += &format!("peek {name} {index}\npoke {name} {index} 0\n");
        }
        for value in [past.to_string(), "65536".into(), word.into(), "-1".into()] {
            input += &format!("poke {name} 0 {value}\n");
        }
        let answers = compare(true, format!("{input}peek {name} 0\n"));
        let (last, unknown) = answers.split_last().expect("answers");
        let are_unknown = unknown.iter().all(|answer| answer.starts_with("unknown "));
        assert!(are_unknown, "{name}: {unknown:?}");
        assert_eq!(last, "ok 0", "{name}");
    }
}

/// What is poked is peeked, and no other entry of any array changes.
#[test]
fn pokes_and_peeks() {
    let peeks_of = |array: &Array| {
        let peeks = sample(array).into_iter();
        let peeks = peeks.map(|index| format!("peek {} {index}\n", array.name));
        peeks.collect::<String>()
    };
    let peeks: String = ARRAYS.iter().map(peeks_of).collect();
    let mut input = String::new();
    for (at, array) in ARRAYS.iter().enumerate() {
        for index in sample(array) {
            let value = (1 + 31 * at + index) % (usize::from(array.largest) + 1);
            input += &format!("poke {} {index} {value}\nnumbers\n{peeks}", array.name);
        }
    }
    assert_all_accepted(&compare(false, input), "pokes and peeks");
    let pokes = some_pokes(&mut Generator(71), 500);
    compare(false, format!("{pokes}{}", peeks_to(usize::MAX)));
}

/// Pokes of some entries, with numbers of any size, small ones often.
fn some_pokes(generator: &mut Generator, count: usize) -> String {
    let mut input = String::new();
    for _ in 0..count {
        let array = &ARRAYS[generator.below(ARRAYS.len())];
        let below = [array.length, 60][generator.below(2)];
        let index = generator.below(below);
        let bound = [usize::from(array.largest) + 1, 120][generator.below(2)];
        let value = generator.below(bound);
        input += &format!("poke {} {index} {value}\n", array.name);
    }
    input
}

/// After a start every entry is 0, those of the marks too, but rows 0 and gathered 0, which
/// are 1, and the fixed lifts; and the numbers are 0, K and 1, whatever was stored.
#[test]
fn a_start() {
    let generator = &mut Generator(72);
    let pokes = some_pokes(generator, 2_000);
    let stored = format!("{pokes}numbers 77 300 5\n");
    let peeks = peeks_to(usize::MAX);
    let answers = compare(false, format!("{stored}start 5\nnumbers\n{peeks}"));
    let after = &answers[2_001..];
    assert_eq!(after[..2], ["ok", "ok 0 5 1"]);
    let others = after[2..].iter().filter(|answer| *answer != "ok 0");
    let lifts = fixed_lifts().map(|lift| format!("ok {lift}"));
    let expected = [&lifts[..], &["ok 1".into(), "ok 1".into()]].concat();
    assert!(others.eq(&expected), "entries other than 0");
    let peeks = peeks_to(99);
    compare(false, format!("{stored}start 9\nnumbers\n{peeks}"));
}

/// Each name is that of its lane: after feeds the entries are those that the library
/// stores.
#[test]
fn the_names_of_the_arrays() {
    let draft = broken_cubes(&mut Generator(73), 2, 60);
    let picks = String::from_utf8(draft.clone()).expect("letters");
    let last = 2 * draft.len() + 3;
    let fed = format!("start 8\nmark B\npicks {picks}\nmark Z\n");
    let answers = compare(false, format!("{fed}{}", peeks_to(last)));
    let bytes = [
        &draft,
        &word(&fixed_lifts(), &draft),
        &fixed_lifts().to_vec(),
    ];
    let mut rest = &answers[3 + draft.len()..];
    for (bytes, array) in bytes.into_iter().zip(&ARRAYS) {
        let given;
        (given, rest) = rest.split_at(array.length.min(last + 1));
        let stored = bytes.iter().map(|byte| format!("ok {byte}"));
        assert!(
            stored.eq(given[..bytes.len()].iter().cloned()),
            "{}",
            array.name
        );
    }
    let (given, rest) = rest.split_at(LETTERS);
    let mut marks = vec!["ok 0".to_string(); LETTERS];
    (marks[1], marks[25]) = ("ok 1".to_string(), format!("ok {}", draft.len() + 1));
    assert_eq!(given, marks, "marks at 0 and at the end, draft {picks}");
    assert_lanes(rest, &draft, last);
}

/// Asserts that these are the peeks of all lanes up to the last index, that each is as the
/// library stores it of the draft, and that no two are alike.
fn assert_lanes(rest: &[String], draft: &[u8], last: usize) {
    let picks = String::from_utf8_lossy(draft);
    let board = Board::fed(draft, MOST_SECTIONS);
    let lanes = [
        board.centre_lane(RADIUS),
        board.place_lane(HEADS),
        board.centre_lane(LENDS),
        board.centre_lane(NEXT),
        board.centre_lane(PREV),
        board.place_lane(ROWS),
        board.place_lane(GATHERED),
    ];
    for (at, (lane, given)) in lanes.iter().zip(rest.chunks(last + 1)).enumerate() {
        let stored: Vec<String> = lane[..=last]
            .iter()
            .map(|entry| format!("ok {entry}"))
            .collect();
        let name = ARRAYS[at + 4].name;
        assert_eq!(given, stored, "{name}, draft {picks}");
        let alike = lanes.iter().filter(|other| other[..=last] == lane[..=last]);
        assert_eq!(
            alike.count(),
            1,
            "{name} is like another lane, draft {picks}"
        );
    }
}

/// n, K and the longest ending's centre as they are stored, with all their bits.
#[test]
fn the_numbers() {
    compare_session(true, include_str!("sessions/numbers.txt"));
}

/// Whatever is stored as the next centre of an ending: "length less period is always the
/// length at the centre it gives".
#[test]
fn any_stored_next_centre() {
    let mut input = String::from("start 8\npicks AABACABAA\n");
    for centre in [10, 17, 18] {
        for stored in [0, centre - 1, centre, centre + 1, 18, 19, 20, 4_097, 65_535] {
            input += &format!("poke next {centre} {stored}\nnext {centre}\n");
        }
    }
    assert_all_accepted(&compare(false, input), "endings of AABACABAA");
}

/// A number of the state: small, near the arrays' lengths, or of any size.
fn some_size(generator: &mut Generator) -> usize {
    let bounds = [10, 2 * MOST_PICKS + 4, 1 << 16, usize::MAX];
    let bound = bounds[generator.below(bounds.len())];
    generator.below(bound)
}

/// Numbers that pass test 7 mostly; n often just beside its limit, K now and then a good
/// one modulo 256.
fn some_numbers(generator: &mut Generator) -> String {
    let n = match generator.below(8) {
        0 => some_size(generator),
        1..=2 => MOST_PICKS - 1 + generator.below(3),
        3 => generator.below(MOST_PICKS),
        _ => generator.below(40),
    };
    let k = match generator.below(6) {
        0 => some_size(generator),
        1 => 256 + generator.below(10),
        _ => generator.below(10),
    };
    format!("numbers {n} {k} {}", some_size(generator))
}

/// A line on a state that no run made: no start, which would end it.
fn some_line(generator: &mut Generator, n: usize) -> String {
    let array = &ARRAYS[generator.below(ARRAYS.len())];
    match generator.below(16) {
        0 => "numbers".to_string(),
        1 => some_numbers(generator),
        2 => some_pokes(generator, 1).trim_end().to_string(),
        3..=4 => format!("peek {} {}", array.name, generator.below(60)),
        5 => format!("feed {}", 65 + generator.below(3)),
        _ => loop {
            let call = some_call(generator, n.min(MOST_PICKS));
            if !call.starts_with("start") {
                return call;
            }
        },
    }
}

/// Every call on states that no run made: 1 to 4, 7, 8 and 13 to 18 are given as listed, and
/// every other answer is one that the call can have; behind an accepted back it is the one
/// that the kept picks have.
#[test]
fn states_that_no_run_made() {
    let generator = &mut Generator(74);
    let mut answers = Vec::new();
    for at in 0..200 {
        let all = at % 2 == 0;
        let length = generator.below(50);
        let picks = String::from_utf8(broken_cubes(generator, 2, length)).expect("letters");
        let fed = match at % 4 {
            0 => String::new(),
            _ => format!("start {}\npicks {picks}A\n", 1 + generator.below(8)),
        };
        let count = generator.below(60);
        let pokes = some_pokes(generator, count);
        let opening = format!("{fed}{pokes}{}", some_numbers(generator));
        let input = session(&opening, 50, |n| some_line(generator, n));
        answers.extend(compare(all, input));
    }
    let times = refusals(&answers);
    assert!(times[0] > 4_000, "{} are accepted", times[0]);
    for number in [1, 2, 3, 4, 5, 7, 8, 9, 10, 13, 14, 15, 16, 17, 18] {
        assert!(times[number] > 0, "number {number} is never given");
    }
}
