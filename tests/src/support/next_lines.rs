//! The next shorter ending at every centre of many drafts.

use crate::full_drafts::of_each_kind;
use crate::plain::endings;
use crate::samples::every_draft_to;
use crate::support::answered::accepted;

/// Every draft over two letters to 8 picks and over three to 5, and some of 2,048 picks.
fn drafts() -> impl Iterator<Item = Vec<u8>> {
    let small = every_draft_to(2, 8).chain(every_draft_to(3, 5));
    let full = of_each_kind().into_iter().step_by(5);
    small.chain(full.map(|(_, draft)| draft))
}

/// A `next` for each centre of a draft of n picks, and for those beside.
fn nexts(n: usize) -> String {
    let centres = 0..=2 * n + 2;
    centres.map(|centre| format!("next {centre}\n")).collect()
}

/// Asserts that `next` is accepted for each ending but the empty one. The answers are
/// compared where they are made; `feeds` makes the lines that feed a draft.
pub fn assert_every_centre(
    feeds: impl Fn(&[u8]) -> String,
    answers_to: impl FnOnce(&str) -> Vec<String>,
) {
    let mut input = String::new();
    let (mut fed, mut ended) = (0, 0);
    for draft in drafts() {
        input += &format!("start 8\n{}{}", feeds(&draft), nexts(draft.len()));
        fed += 1 + draft.len();
        ended += endings(&draft).len() - 1;
    }
    let answers = answers_to(&input);
    let expected = fed + ended;
    assert_eq!(accepted(&answers), expected, "starts, feeds and endings");
}
