//! The README's drawing of the crates says what crates.txt says.

use crate::support::repository::file;

/// The crates with all that they stand on, as crates.txt lists them.
fn listed() -> Vec<(String, Vec<String>)> {
    file("crates.txt")
        .lines()
        .filter(|line| !line.starts_with('#'))
        .filter_map(|line| line.split_once(':'))
        .map(|(name, below)| {
            let below = below.split_whitespace().map(String::from).collect();
            let name = name.strip_suffix(" staticlib").unwrap_or(name);
            (name.to_string(), below)
        })
        .collect()
}

/// The drawing: an arrow for each crate that is stood on straight, not by way of another.
fn drawing(crates: &[(String, Vec<String>)]) -> String {
    let below = |name: &str| {
        crates
            .iter()
            .find(|(other, _)| other == name)
            .map(|(_, below)| below)
    };
    let mut text = String::from("graph BT\n");
    for (name, all) in crates {
        let ours: Vec<_> = all.iter().filter(|other| below(other).is_some()).collect();
        let straight = |other: &String| {
            !ours
                .iter()
                .any(|way| below(way).is_some_and(|all| all.contains(other)))
        };
        let mut arrows = ours.iter().filter(|other| straight(other)).peekable();
        if arrows.peek().is_none() {
            text += &format!("    {name}\n");
        }
        for other in arrows {
            text += &format!("    {name} --> {other}\n");
        }
    }
    text
}

#[test]
fn the_drawing_is_that_of_crates_txt() {
    let crates = listed();
    assert!(
        crates.len() > 10,
        "crates.txt lists {} crates",
        crates.len()
    );
    let readme = file("README.md");
    let (_, rest) = readme
        .split_once("```mermaid\n")
        .expect("README.md has no drawing");
    let (drawn, _) = rest.split_once("```").expect("the drawing has no end");
    assert_eq!(
        drawn,
        drawing(&crates),
        "the drawing in README.md should be as on the right"
    );
}

#[test]
fn every_crate_has_its_place_in_the_table() {
    let readme = file("README.md");
    for (name, _) in listed() {
        let folder = format!("`crates/{name}`");
        assert!(readme.contains(&folder), "README.md's map has no {folder}");
    }
}
