//! The visits of a feed, by what the board's own call tells of each.

use comparison::library::Board;
use comparison::plain::next_leading_by_formula;
use comparison::scripted::Call;

/// "After each accepted feed every visited length but the first is document 01's next
/// shorter leading one, by the length and period this call gives for the visit before."
/// The length given is the visit's own, and the last visit leads to the empty ending.
pub fn assert_visits_lead_on(board: &mut Board, visits: &[u16], name: &str) {
    let n = board.n();
    assert!(!visits.is_empty(), "{name}, after {n}: no visit");
    let last = 2 * n as u16 + 1;
    let centres = visits.iter().map(|length| last - length);
    let calls: Vec<Call> = centres.map(|centre| Call::NextEnding { centre }).collect();
    let following = visits.iter().skip(1).chain(&[0]);
    for ((reply, visit), &next) in board.ask(&calls).iter().zip(visits).zip(following) {
        let case = format!("{name}, after {n}, visit of {visit}: {reply:?}");
        let [_, length, period] = reply.expect(&case);
        assert_eq!(length, usize::from(*visit), "{case}");
        assert!((1..=length).contains(&period), "{case}");
        let by_rule = next_leading_by_formula(length, period);
        assert_eq!(by_rule, usize::from(next), "{case}");
    }
}
