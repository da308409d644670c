//! Splits whose turn counts are worked out by hand, as lines.

use crate::support::turn_counts::TURN_COUNTS;

/// Asserts that each split is answered with its turn count and its ends; `feeds` makes the
/// lines that feed a draft.
pub fn assert_turn_counts(
    feeds: impl Fn(&[u8]) -> String,
    answers_to: impl FnOnce(&str) -> Vec<String>,
) {
    let mut input = String::new();
    for (draft, k, ..) in TURN_COUNTS {
        let feeds = feeds(draft.as_bytes());
        input += &format!("start 8\n{feeds}split {} {k}\n", draft.len());
    }
    let mut answers = answers_to(&input).into_iter();
    for (draft, k, ends, turns) in TURN_COUNTS {
        let ends: String = ends.iter().map(|end| format!(" {end}")).collect();
        let behind_the_feeds = answers.nth(1 + draft.len());
        let expected = format!("ok {turns} |{ends}");
        assert_eq!(behind_the_feeds, Some(expected), "{draft} in {k}");
    }
}
