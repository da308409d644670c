//! The program in `examples/`, built with every warning an error and once more with the
//! sanitizers.

use crate::support::c_program::program;
use std::path::PathBuf;
use std::process::Command;
use std::sync::LazyLock;

const SOURCE: &str = "../examples/sections.c";

/// The program in both forms.
static SECTIONS: LazyLock<[PathBuf; 2]> = LazyLock::new(|| {
    let sanitizers = "-g -fsanitize=address,undefined -fno-sanitize-recover";
    [
        program("gcc -std=c11", SOURCE, "sections"),
        program(
            &format!("gcc -std=c11 {sanitizers}"),
            SOURCE,
            "sections_sanitized",
        ),
    ]
});

/// Asserts that both forms print this, and nothing to standard error, and end so.
fn assert_printed(arguments: &[&str], printed: &str, status: i32) {
    for path in SECTIONS.iter() {
        let output = Command::new(path).args(arguments).output();
        let output = output.expect("the program runs");
        let case = format!("{} {arguments:?}", path.display());
        assert_eq!(String::from_utf8_lossy(&output.stdout), printed, "{case}");
        assert_eq!(String::from_utf8_lossy(&output.stderr), "", "{case}");
        assert_eq!(output.status.code(), Some(status), "{case}");
    }
}

/// What stands beside the program is what it prints.
#[test]
fn the_worked_example() {
    assert_printed(&[], include_str!("../../../examples/sections.txt"), 0);
    assert_printed(
        &["ABACDDC", "2"],
        include_str!("../../../examples/sections.txt"),
        0,
    );
}

/// A draft in one section, and the longest that there is, in eight.
#[test]
fn other_drafts() {
    let lines = [
        "1 A: mask 1, sections 1",
        "1 sections, 0 turns",
        "section 1: A",
        "1,1,1,A",
        "unfolded: A",
        "1 picks, turning on pick 1",
        "",
    ];
    assert_printed(&["A", "1"], &lines.join("\n"), 0);
    let draft = "A".repeat(2_048);
    let output = Command::new(&SECTIONS[1]).args([&draft, "8"]).output();
    let printed = String::from_utf8(output.expect("the program runs").stdout).expect("text");
    let record = format!(
        "\n2048,8,1,A,1,A,1,A,1,A,1,A,1,A,1,A,2041,{}\nunfolded: {draft}\n",
        "A".repeat(1_021)
    );
    assert!(printed.contains("\n8 sections, 1 turns\n"), "{printed}");
    assert!(printed.contains(&record), "{printed}");
    assert!(
        printed.ends_with("\n2041 picks, turning on pick 1028\n"),
        "{printed}"
    );
}

/// A refusal is named, and ends the program with status 1.
#[test]
fn refusals() {
    let fed = "1 A: mask 1, sections 1\n2 B: mask 2, sections 2\n";
    assert_printed(&["ABa", "2"], &format!("{fed}feed refused with 2\n"), 1);
    assert_printed(&["AB", "1"], &format!("{fed}split refused with 9\n"), 1);
    assert_printed(&["AB", "9"], &format!("{fed}split refused with 1\n"), 1);
    assert_printed(&["AB", "258"], &format!("{fed}split refused with 1\n"), 1);
}
