//! The planted faults: each still fits the text, and what is said of them is so.

use as_rust::faults::{faults_in, planted, Fault};
use as_rust::sources::Text;
use as_rust::text::rust_of;
use std::collections::{BTreeMap, BTreeSet};
use std::fs;
use std::path::Path;

fn faults() -> Vec<Fault> {
    faults_in(Path::new("faults")).expect("the lists of faults")
}

#[test]
fn each_fits_the_text_outside_of_clauses() {
    let sources = Text::read(Path::new("..")).expect("the sources").sources;
    for fault in faults() {
        let (edited, _) = planted(&fault, &sources).unwrap_or_else(|why| panic!("{why}"));
        for edit in &fault.edits {
            let file = &edit.file;
            let rust = rust_of(&edited[file]).unwrap_or_else(|why| panic!("{file}, {why}"));
            let before = rust_of(&sources[file]).expect("the text as Rust");
            assert_ne!(rust, before, "{} in {file}", fault.name);
        }
    }
}

/// The modules of a test crate, by its `main.rs`.
fn modules(of: &str) -> BTreeSet<String> {
    let main = fs::read_to_string(format!("tests/{of}/main.rs")).expect("a test crate");
    let modules = main.lines().filter_map(|line| line.strip_prefix("mod "));
    let names = modules.map(|name| name.trim_end_matches(';').to_string());
    names.filter(|name| name != "support").collect()
}

/// A module that sees none is not known to be able to fail.
#[test]
fn each_module_should_see_some() {
    let named = faults().into_iter().flat_map(|fault| fault.tests);
    let mut all: BTreeSet<String> = ["board", "draft"].into_iter().flat_map(modules).collect();
    all.insert("compilers".to_string());
    assert_eq!(named.collect::<BTreeSet<String>>(), all);
}

#[test]
fn each_list_has_as_many_as_is_said() {
    let mut counts: BTreeMap<String, usize> = BTreeMap::new();
    for fault in faults() {
        *counts.entry(fault.list).or_default() += 1;
    }
    let page = fs::read_to_string("../docs/TESTING.md").expect("docs/TESTING.md");
    for (list, count) in &counts {
        let row = page
            .lines()
            .find(|line| line.starts_with(&format!("| `{list}`:")));
        let row = row.unwrap_or_else(|| panic!("no row for {list}"));
        let said = row.split('|').nth(2).map(str::trim);
        assert_eq!(said, Some(count.to_string().as_str()), "{list}");
    }
    let all: usize = counts.values().sum();
    assert!(page.contains(&format!("{all} faults")), "{all} faults");
}
