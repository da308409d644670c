//! Every place of an argument that its field may not hold.

/// Each place N of each call on the draft ABACDDC, with K = 8: an argument that would be
/// good where it is cut, and how the call is answered.
const PLACES: [(&str, u128, &str); 28] = [
    ("start N", 8, "refused 1"),
    ("start N", 0, "refused 1"),
    ("feed N", 65, "refused 2"),
    ("feed N", 0, "refused 2"),
    ("feed N 3", 65, "refused 2"),
    ("mark N", 65, "refused 2"),
    ("mark N", 0, "refused 2"),
    ("back N", 65, "refused 2"),
    ("back N", 0, "refused 2"),
    ("mask N", 7, "refused 4"),
    ("mask N", 0, "refused 4"),
    ("radius N", 8, "refused 4"),
    ("next N", 11, "refused 4"),
    ("split N 2", 7, "refused 4"),
    ("split N 2 1", 7, "refused 13"),
    ("split 7 N", 2, "refused 1"),
    ("split 7 N", 8, "refused 1"),
    ("split 7 N 2", 2, "refused 1"),
    ("split 8 N 0", 2, "refused 1"),
    ("split 7 N 70000", 2, "refused 1"),
    ("record N 2", 7, "refused 4"),
    ("record 7 N", 2, "refused 1"),
    ("record 8 N 0", 2, "refused 1"),
    ("show ABACDDC N 3 7", 1, "refused 4"),
    ("lift N", 65, "refused 2"),
    (r"section 7,2,3,AB,4,CD\n N", 0, "ok none"),
    (r"section 7,2,3,AB,4,CD\n N", 4, "ok none"),
    (r"section 7,2,3,AB,4,CD\n N", 9, "ok none"),
];

/// The lines with each number that is far from the one at N, and how each is answered.
fn lines<Far: IntoIterator<Item = String>>(far: impl Fn(u128) -> Far) -> Vec<[String; 2]> {
    let mut lines = Vec::new();
    for (line, cut, answer) in PLACES {
        let line = |far: String| [line.replace('N', &far), answer.to_string()];
        lines.extend(far(cut).into_iter().map(line));
    }
    lines
}

/// Asserts that each line is answered so, behind the opening, which makes the draft and has
/// eight answers.
pub fn assert_far_are_not_cut<Far: IntoIterator<Item = String>>(
    opening: &str,
    far: impl Fn(u128) -> Far,
    answers_to: impl FnOnce(&str) -> Vec<String>,
) {
    let lines = lines(far);
    let input: String = lines.iter().map(|[line, _]| format!("{line}\n")).collect();
    let answers = answers_to(&format!("{opening}{input}"));
    assert_eq!(answers.len(), 8 + lines.len(), "answers");
    for ([line, expected], answer) in lines.iter().zip(&answers[8..]) {
        assert!(answer.starts_with(expected), "{line}: {answer}");
    }
}
