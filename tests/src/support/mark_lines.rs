//! Marks and backs as lines, all in decimal numbers, with the answers that are due.

use crate::full_drafts::of_each_kind;
use crate::support::lines::feeds;
use crate::{FIRST_PICK, LAST_PICK, LETTERS, MOST_MARKS, MOST_PICKS};
use std::ops::RangeInclusive;

/// The names that there can be.
const NAMES: RangeInclusive<u8> = FIRST_PICK..=LAST_PICK;

/// The mark that drafts are cut at.
const NAME: u8 = b'M';

/// Asserts that these lines are answered so.
fn assert_due(lines: &[(String, &str)], answers_to: impl FnOnce(&str) -> Vec<String>) {
    let input: String = lines.iter().map(|(line, _)| format!("{line}\n")).collect();
    let answers = answers_to(&input);
    assert_eq!(answers.len(), lines.len(), "answers");
    for (at, ((line, due), answer)) in lines.iter().zip(&answers).enumerate() {
        assert_eq!(answer, due, "line {at}: {line}");
    }
}

/// Asserts of every byte as a name, on an empty draft: "A name outside A to Z is 2." A
/// letter is 17 until it is set.
pub fn assert_every_name(answers_to: impl FnOnce(&str) -> Vec<String>) {
    let mut lines = Vec::new();
    for name in 0..=u8::MAX {
        let [unset, set] = match NAMES.contains(&name) {
            true => ["refused 17", "ok"],
            false => ["refused 2"; 2],
        };
        lines.push(("start 8".to_string(), "ok"));
        lines.push((format!("back {name}"), unset));
        lines.push((format!("mark {name}"), set));
        lines.push((format!("mark {name}"), set));
        lines.push((format!("back {name}"), set));
    }
    assert_due(&lines, answers_to);
}

/// `ok`, or the refusal where its line is met.
fn ok_unless(met: bool, refusal: &'static str) -> &'static str {
    match met {
        true => refusal,
        false => "ok",
    }
}

/// Asserts of none to four marks, from each letter on: 17 for each name that is none of
/// them, 18 for one more than four, and neither for those that are set.
pub fn assert_every_count(answers_to: impl FnOnce(&str) -> Vec<String>) {
    let mut lines = Vec::new();
    for first in 0..LETTERS {
        for count in 0..=MOST_MARKS {
            let names: Vec<u8> = NAMES.cycle().skip(first).take(count + 1).collect();
            let (more, set) = names.split_last().expect("a name more");
            let marks = set.iter().map(|name| (format!("mark {name}"), "ok"));
            let back = |name| ok_unless(!set.contains(&name), "refused 17");
            let backs = NAMES.map(|name| (format!("back {name}"), back(name)));
            lines.push(("start 8".to_string(), "ok"));
            lines.extend(marks.clone().chain(backs));
            let fifth = ok_unless(count == MOST_MARKS, "refused 18");
            lines.push((format!("mark {more}"), fifth));
            lines.extend(marks);
        }
    }
    assert_due(&lines, answers_to);
}

/// What is asked of a draft of so many picks, and another ending for it. Each line has one
/// answer.
fn asked(n: usize) -> String {
    let mut lines = format!("mask {n}\nmask {}\nlongest\n", n + 1);
    lines += &format!("peek letters {n}\npeek codes {n}\n");
    for centre in 0..=2 * n + 2 {
        lines += &format!("radius {centre}\nnext {centre}\n");
    }
    for k in 1..=8 {
        lines += &format!("split {n} {k}\nrecord {n} {k}\n");
    }
    lines + &feeds(b"BAABAC") + "longest\n"
}

/// Asserts that going back from each length of a draft to each mark leaves what is asked
/// and the picks behind it as where only those up to the mark were fed.
pub fn assert_every_length(answers_to: impl Fn(&str) -> Vec<String>) {
    let draft = b"AABACABAABBA";
    for kept in 0..=draft.len() {
        let (before, rest) = draft.split_at(kept);
        let opening = format!("start 8\n{}mark {NAME}\n", feeds(before));
        let asked = asked(kept);
        let mut input = format!("{opening}{asked}");
        for more in 0..=rest.len() {
            let fed = feeds(&rest[..more]);
            input += &format!("{opening}{fed}back {NAME}\n{asked}");
        }
        let [opened, count] = [&opening, &asked].map(|lines| lines.lines().count());
        let mut answers = answers_to(&input).into_iter();
        let mut behind = |lines| Vec::from_iter(answers.by_ref().skip(lines).take(count));
        let plain = behind(opened);
        for more in 0..=rest.len() {
            let given = behind(opened + more + 1);
            assert_eq!(given, plain, "back to {kept} from {more} picks more");
        }
    }
}

/// Asserts of drafts of 2,048 picks that they can be gone back to whole, half and empty, and
/// that their second half is then answered as the first time.
pub fn assert_full_drafts(answers_to: impl Fn(&str) -> Vec<String>) {
    for (name, draft) in of_each_kind().into_iter().step_by(7) {
        let (first, second) = draft.split_at(MOST_PICKS / 2);
        let [first, second] = [first, second].map(feeds);
        let opening = format!("start 8\nmark 65\n{first}mark 66\n");
        let full = format!("{second}mark 67\nback 67\nfeed 65\nback 66\n");
        let answers = answers_to(&format!("{opening}{full}{full}back 65\nlongest\nback 66\n"));
        let count = full.lines().count();
        let behind = &answers[opening.lines().count()..];
        let (once, behind) = behind.split_at(count);
        let (again, behind) = behind.split_at(count);
        assert_eq!(once, again, "the second half of {name}");
        let [.., marked, whole, fed, half] = once else {
            panic!("{} answers, {name}", once.len());
        };
        assert_eq!([marked, whole, half], ["ok"; 3], "{name}");
        assert!(fed.starts_with("refused 8"), "{name} is full: {fed}");
        assert_eq!(behind, ["ok", "ok 1", "refused 17"], "{name}");
    }
}
