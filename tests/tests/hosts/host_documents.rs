//! What README, docs/HOSTS.md and the console's help say of the hosts is so.

use crate::support::repository::file;
use board::{Sentence, State, SENTENCES};
use comparison::support::console::{compare, compare_session};
use std::mem::size_of;

/// The cells of the rows of the table that has this header.
fn rows(text: &str, header: &str) -> Vec<Vec<String>> {
    let (_, behind) = text
        .split_once(header)
        .unwrap_or_else(|| panic!("no table {header}"));
    let lines = behind
        .lines()
        .skip(2)
        .take_while(|line| line.starts_with('|'));
    let cells = |line: &str| {
        line.trim_matches('|')
            .split(" | ")
            .map(|cell| cell.trim().to_string())
            .collect()
    };
    lines.map(cells).collect()
}

/// The package has the README's two sentences of each number, and no other number.
#[test]
fn the_sentences_are_those_of_the_readme() {
    let table = rows(&file("README.md"), "| Number | It means | What to do |");
    assert_eq!(table.len(), SENTENCES.len(), "numbers in README.md's table");
    for (row, (at, Sentence { means, remedy })) in table.iter().zip(SENTENCES.iter().enumerate()) {
        assert_eq!(row, &[&(at + 1).to_string(), *means, *remedy]);
    }
}

/// The sessions in the README, the worked examples, one with a mill's own lifts and one with
/// marks, are as the console prints them.
#[test]
fn the_sessions_are_as_the_console_prints_them() {
    let readme = file("README.md");
    let sessions: Vec<&str> = readme.split("    $ ./board\n").skip(1).collect();
    assert_eq!(sessions.len(), 3, "sessions in README.md");
    for (behind, fewest) in sessions.into_iter().zip([60, 20, 30]) {
        let lines = behind.lines().map_while(|line| line.strip_prefix("    "));
        let session: Vec<&str> = lines.collect();
        assert!(session.len() > fewest, "only {} lines", session.len());
        compare_session(false, &session.join("\n"));
    }
}

/// Every call that `help` names has its line in the help text and in docs/HOSTS.md, as it is written.
#[test]
fn every_call_is_explained() {
    let answer = compare(false, b"help\n").concat();
    let calls: Vec<&str> = answer
        .strip_prefix("ok ")
        .expect("an accepted call")
        .split("; ")
        .collect();
    assert!(calls.len() > 10, "{answer}");
    let (help, hosts) = (file("console/help.txt"), file("docs/HOSTS.md"));
    for call in calls {
        for call in ways_to_write(call) {
            let line = format!("\n  {call} ");
            assert!(help.contains(&line), "help.txt has no line for {call}");
            assert!(
                hosts.contains(&format!("\n| `{call}` |")),
                "HOSTS.md has no row for {call}"
            );
        }
    }
}

/// Calls as docs/HOSTS.md writes them, and a line of each that is accepted behind those above.
const ACCEPTED: [(&str, &str); 16] = [
    ("start K", "start 8"),
    (
        "load BYTE..",
        "load 1 1 1 1 1 1 1 1 1 1 1 1 1 1 1 1 1 1 1 1 1 1 1 1 1 1",
    ),
    ("feed PICK [ENTRIES]", "feed A"),
    ("mark NAME", "mark M"),
    ("back NAME", "back M"),
    ("mask I", "mask 1"),
    ("radius C", "radius 2"),
    ("longest", "longest"),
    ("next C", "next 2"),
    ("split I K [ENTRIES]", "split 1 1"),
    ("record I K [BYTES]", "record 1 1"),
    ("lift LETTER", "lift A"),
    ("unfold TEXT [BYTES]", r"unfold 1,1,1,A\n"),
    ("section TEXT AT", r"section 1,1,1,A\n 0"),
    ("numbers", "numbers"),
    ("peek ARRAY INDEX", "peek rows 0"),
];

/// Each call's row in docs/HOSTS.md has as many values as the console prints.
#[test]
fn the_rows_have_the_values_that_are_printed() {
    let header = "| Line | The answer, where it is accepted |";
    let table = rows(&file("docs/HOSTS.md"), header);
    let answers = compare(false, ACCEPTED.map(|(_, line)| line).join("\n"));
    for ((call, _), answer) in ACCEPTED.iter().zip(answers) {
        let is_its = |row: &&Vec<String>| row[0] == format!("`{call}`");
        let row = table.iter().find(is_its).expect(call);
        let said = quoted(&row[1]).next().expect("an answer in backticks");
        let printed = answer.split(" |").next().expect("values");
        let [said_words, words] = [said, printed].map(|text| text.split(' ').count());
        assert_eq!(
            said_words, words,
            "{call}: {said}, and {printed} is printed"
        );
    }
}

/// The texts in backticks.
fn quoted(cell: &str) -> impl Iterator<Item = &str> {
    cell.split('`').skip(1).step_by(2)
}

/// Whether the sources in Rust have a public function or struct of this name.
fn has_public(sources: &str, name: &str) -> bool {
    let declared = ["fn", "struct"].map(|kind| format!("pub {kind} {name}"));
    let mut behind = declared.iter().flat_map(|text| sources.split(text).skip(1));
    behind.any(|text| text.starts_with(['(', '<', ' ']))
}

/// The first table of docs/HOSTS.md names what C, Rust and the console have.
#[test]
fn the_table_of_the_calls_names_what_there_is() {
    let header = "| Call | C, `include/board.h` | Rust, package `board` | Console |";
    let table = rows(&file("docs/HOSTS.md"), header);
    assert!(table.len() > 10, "{} calls", table.len());
    let in_c = file("include/board.h");
    let in_rust = ["calls", "reader", "stateless"].map(|name| file(&format!("rust/src/{name}.rs")));
    let in_rust = in_rust.concat();
    let help = file("console/help.txt");
    for [call, c, rust, console] in table.iter().map(|row| row.first_chunk().expect("a row")) {
        for name in quoted(c) {
            assert!(in_c.contains(&format!(" {name}(")), "{call}: {name} in C");
        }
        for name in quoted(rust) {
            let name = name.trim_start_matches("Board::");
            assert!(has_public(&in_rust, name), "{call}: {name} in Rust");
        }
        for word in quoted(console) {
            assert!(help.contains(&format!("\n  {word} ")), "{call}: {word}");
        }
    }
}

/// A call whose words may all be left out together has a line with them and one without.
fn ways_to_write(call: &str) -> Vec<String> {
    match call.split_once(" [") {
        Some((word, words)) if !word.contains(' ') => {
            vec![
                word.to_string(),
                format!("{word} {}", words.trim_end_matches(']')),
            ]
        }
        _ => vec![call.to_string()],
    }
}

/// docs/HOSTS.md has the state's size and the arrays' names.
#[test]
fn the_state_is_as_large_as_said() {
    let hosts = file("docs/HOSTS.md");
    let size = size_of::<State>();
    let said = format!("{},{:03}", size / 1_000, size % 1_000);
    assert!(hosts.contains(&said), "HOSTS.md does not say {said}");
    let answer = compare(false, b"peek\n").concat();
    let names = answer.split(' ').skip(1).step_by(2);
    for name in names {
        assert!(
            hosts.contains(&format!("`{name}`")),
            "HOSTS.md has no array {name}"
        );
    }
}
