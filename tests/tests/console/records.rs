//! Records read back through the console, against the console as a function; the sessions
//! that are written out say both.

use crate::support::refusals::refusals;
use comparison::records::{fields_of, one_byte_edits, record_of};
use comparison::spoken::text_of;
use comparison::support::console::{compare, compare_session};
use comparison::MOST_PICKS;

/// The worked examples: records, and bytes that are none, with their places.
#[test]
fn the_worked_examples() {
    compare_session(false, include_str!("sessions/read_back.txt"));
    compare_session(false, include_str!("sessions/no_records.txt"));
}

/// With `--all` the whole list is printed, also behind a refusal and its place.
#[test]
fn the_whole_of_what_is_lent() {
    compare_session(true, include_str!("sessions/whole_picks.txt"));
}

/// The text of a record of sections with these lengths.
fn text_of_record(lengths: &[usize]) -> String {
    text_of(&record_of(&fields_of(lengths)))
}

/// Each byte of a record changed, put in or taken out.
#[test]
fn every_byte_of_a_record() {
    let record = record_of(&fields_of(&[3, 4]));
    let mut input = String::new();
    for edited in one_byte_edits(&record) {
        let text = text_of(&edited);
        input += &format!("unfold {text} 7\nsection {text} 4\n");
    }
    let times = refusals(&compare(false, input));
    let given = [11, 12].map(|number| times[number] > 0);
    assert_eq!(given, [true; 2], "numbers among the answers: {times:?}");
}

/// The section at every place of a record and beyond it.
#[test]
fn every_place_of_a_record() {
    let mut input = String::new();
    for lengths in [&[1][..], &[2], &[3, 4], &[10, 11, 1, 2, 100, 1, 1, 2]] {
        let text = text_of_record(lengths);
        for at in 0..200 {
            input += &format!("section {text} {at}\n");
        }
    }
    let answers = compare(false, input);
    let [on, between] = [" on ", " between "].map(|kind| {
        let turns = answers.iter().filter(|answer| answer.contains(kind));
        turns.count()
    });
    assert_eq!([on, between], [8, 8], "turns on a pick and between two");
}

/// Lists of every size around what is due, and far more; where none is said, 2,048.
#[test]
fn sizes_of_what_is_lent() {
    let text = text_of_record(&[6, 5]);
    let mut input = String::new();
    for size in "0 1 9 10 11 12 2047 2048 65535 65536 100000000000000000000".split(' ') {
        input += &format!("unfold {text} {size}\n");
    }
    for all in [false, true] {
        let times = refusals(&compare(all, &input));
        assert_eq!(
            [times[0], times[5]],
            [7, 4],
            "lists of 11 and more, and of fewer"
        );
    }
    let full = text_of_record(&[1_000, 1_000, 48]);
    let answers = compare(false, format!("unfold {full}\nunfold {full} 2047\n"));
    assert!(answers[0].starts_with("ok 2048 | "), "{}", answers[0]);
    assert_eq!(answers[1], "refused 5");
}

/// What `record` prints is read back by `unfold`: the prefix, for each prefix and k.
#[test]
fn records_of_prefixes() {
    let draft = "AABAABBABAAB";
    let opening = format!("start 8\npicks {draft}\n");
    let asked = (1..=draft.len()).flat_map(|i| (1..=8).map(move |k| (i, k)));
    let asked: Vec<(usize, usize)> = asked.collect();
    let records = asked.iter().map(|(i, k)| format!("record {i} {k}\n"));
    let answers = compare(false, opening + &records.collect::<String>());
    let mut session = String::new();
    for ((i, _), answer) in asked.iter().zip(&answers[1 + draft.len()..]) {
        if let Some((_, record)) = answer.split_once(" | ") {
            session += &format!("> unfold {record}\nok {i} | {}\n", &draft[..*i]);
        }
    }
    assert!(session.lines().count() > 60, "{session}");
    compare_session(false, &session);
}

/// The longest draft, in one section and in eight.
#[test]
fn full_records() {
    for lengths in [&[MOST_PICKS][..], &[1, 1, 1, 1, 1, 1, 1, 2_041], &[256; 8]] {
        let text = text_of_record(lengths);
        let input = format!("unfold {text}\nsection {text} 0\n");
        let answers = compare(true, input);
        assert!(answers[0].starts_with("ok 2048 | "), "{}", answers[0]);
        assert_ne!(answers[1], "ok none");
    }
}
