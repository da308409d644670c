//! Sessions written out, each line behind `> ` and its answers below it.

/// Asserts that the lines of the session are answered so.
pub fn assert_session(session: &str, answers_to: impl FnOnce(&str) -> Vec<String>) {
    let lines: Vec<&str> = session.lines().collect();
    let input: String = lines
        .iter()
        .filter_map(|line| line.strip_prefix("> "))
        .map(|line| format!("{line}\n"))
        .collect();
    let answers: Vec<&str> = lines
        .iter()
        .copied()
        .filter(|line| !line.starts_with("> ") && !line.is_empty())
        .collect();
    assert!(!answers.is_empty(), "no answers: {session}");
    assert_eq!(answers_to(&input), answers, "{session}");
}
