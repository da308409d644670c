//! What a mark and a back store, entry by entry, and marks that no call set.

use super::{peeks_to, some_pokes, some_size};
use comparison::samples::Generator;
use comparison::spoken::ARRAYS;
use comparison::structured::broken_cubes;
use comparison::support::console::{compare, compare_session};
use comparison::support::lines::feeds;
use comparison::MOST_SECTIONS;

/// All that is stored behind these lines, as peeks answer it, and the numbers.
fn stored_behind(lines: &str) -> Vec<String> {
    let peeks = peeks_to(usize::MAX);
    let mut answers = compare(false, format!("{lines}{peeks}numbers\n"));
    answers.split_off(answers.len() - peeks.lines().count() - 1)
}

/// Asserts that what is stored is the same.
fn assert_same(stored: &[String], expected: &[String], case: &str) {
    let mut pairs = stored.iter().zip(expected);
    let other = pairs.position(|(stored, expected)| stored != expected);
    assert_eq!(other, None, "the first entry that is another, {case}");
    assert_eq!(stored.len(), expected.len(), "{case}");
}

/// A mark stores one more than the draft's length at its name, and nothing else; a refused
/// one stores nothing.
#[test]
fn what_a_mark_stores() {
    let arrays = ARRAYS.iter().take_while(|array| array.name != "marks");
    let first: usize = arrays.map(|array| array.length).sum();
    let mut lines = String::from("start 8\n");
    for (before, name, entry) in [
        ("picks AAB", "B", Some((1, 4))),
        ("picks ACA", "Z", Some((25, 7))),
        ("picks BA\nmark A\nmark M", "B", Some((1, 9))),
        ("feed A", "N", None),
        ("feed A", "M", Some((12, 11))),
    ] {
        lines += &format!("{before}\n");
        let mut expected = stored_behind(&lines);
        lines += &format!("mark {name}\n");
        if let Some((index, value)) = entry {
            expected[first + index] = format!("ok {value}");
        }
        assert_same(&stored_behind(&lines), &expected, &lines);
    }
}

/// Pokes of anything but marks, lifts and the first so many letters.
fn pokes_beside(generator: &mut Generator, picks: usize) -> String {
    let pokes = some_pokes(generator, 400);
    let is_kept = |line: &&str| {
        let words: Vec<&str> = line.split(' ').collect();
        let index: usize = words[2].parse().expect("an index");
        match words[1] {
            "letters" => index >= picks,
            name => name != "lifts" && name != "marks",
        }
    };
    let pokes = pokes.lines().filter(is_kept);
    pokes.map(|line| format!("{line}\n")).collect()
}

/// Pokes of some lifts.
fn pokes_of_lifts(generator: &mut Generator) -> String {
    let mut pokes = String::new();
    for _ in 0..generator.below(6) {
        let (letter, lift) = (generator.below(4), generator.below(256));
        pokes += &format!("poke lifts {letter} {lift}\n");
    }
    pokes
}

/// "Going back restores picks, row words, gathered words and all else but marks and lifts
/// to exactly what feeding only those picks would have left, and drops marks of greater
/// length": every entry, whatever is stored beside the picks that are kept, which are those
/// up to the mark, or all where it is longer than the draft.
#[test]
fn what_a_back_stores() {
    let generator = &mut Generator(75);
    let cases = [(60, 0), (60, 1), (60, 31), (60, 59), (60, 60), (40, 49)];
    for (n, marked) in cases.into_iter().chain([(0, 0), (0, 7)]) {
        let draft = broken_cubes(generator, 2, n);
        let k = 1 + generator.below(MOST_SECTIONS);
        let lifts = pokes_of_lifts(generator);
        let entry = marked + 1;
        let stay = format!("poke marks 1 1\npoke marks 4 {entry}\npoke marks 25 {entry}\n");
        let longer = format!("poke marks 0 {}\npoke marks 2 65535\n", entry + 1);
        let beside = pokes_beside(generator, n);
        let numbers = format!("numbers {n} {k} {}\n", some_size(generator));
        let fed = format!("start 8\n{}", feeds(&draft));
        let stored = format!("{fed}{beside}{lifts}{stay}{longer}{numbers}");
        let back = stored_behind(&format!("{stored}back Z\n"));
        let kept = feeds(&draft[..marked.min(n)]);
        let plain = stored_behind(&format!("start {k}\n{lifts}{kept}{stay}"));
        assert_same(&back, &plain, &format!("back to {marked}, {stored}"));
    }
}

/// Marks that no call set: longer than the draft, more than four; picks that are no letters,
/// and lifts and codes that are others when they are fed again.
#[test]
fn marks_that_no_call_set() {
    compare_session(false, include_str!("../sessions/poked_marks.txt"));
}
