//! The lists of planted faults. A fault is one edit or several of the board's sources:
//!
//! ```text
//! tests: small
//!
//! fault: five_periods_fit
//! file: crates/engine/src/visits.rt
//! old:     if len < 3 * p {
//! new:     if len < 5 * p {
//! ```
//!
//! Lines of `old`, or of `new`, one after the other are one text. The old text must stand exactly
//! once in the file. `tests` before the first fault names the tests that should see the list's
//! faults; behind a fault's name, those that should see it.

use crate::sources::Sources;
use std::collections::{BTreeMap, BTreeSet};
use std::fs;
use std::path::Path;

/// A text of a file, and what is to stand in its place.
#[derive(Clone, Debug, Default)]
pub struct Edit {
    pub file: String,
    pub old: String,
    pub new: String,
}

/// A fault, with the tests that should see it.
#[derive(Clone, Debug)]
pub struct Fault {
    pub list: String,
    pub name: String,
    pub tests: Vec<String>,
    pub edits: Vec<Edit>,
}

/// The faults of every list in the folder, in the order of their names and lines.
pub fn faults_in(folder: &Path) -> Result<Vec<Fault>, String> {
    let entries = fs::read_dir(folder).map_err(|error| format!("{}: {error}", folder.display()))?;
    let paths = entries.map(|entry| entry.map(|entry| entry.path()));
    let mut paths: Vec<_> = paths
        .collect::<Result<_, _>>()
        .map_err(|error| error.to_string())?;
    paths.sort();
    let mut faults = Vec::new();
    for path in paths {
        let text = fs::read_to_string(&path).map_err(|error| error.to_string())?;
        let list = path.file_stem().unwrap_or_default().to_string_lossy();
        faults.extend(faults_of(&list, &text)?);
    }
    let mut names = BTreeSet::new();
    match faults.iter().find(|fault| !names.insert(&fault.name)) {
        Some(twice) => Err(format!("two faults are named {}", twice.name)),
        None => Ok(faults),
    }
}

/// The faults of a list.
fn faults_of(list: &str, text: &str) -> Result<Vec<Fault>, String> {
    let mut faults: Vec<Fault> = Vec::new();
    let mut tests = Vec::new();
    let mut last = "";
    for line in text.lines().filter(|line| !line.starts_with('#')) {
        let (kind, value) = line.split_once(':').unwrap_or((line, ""));
        let value = value.strip_prefix(' ').unwrap_or(value);
        let wrong = || format!("{list}: {line}");
        match (kind, faults.last_mut()) {
            ("", _) if line.is_empty() => {}
            ("tests", None) => tests = words(value),
            ("fault", _) => faults.push(Fault {
                list: list.to_string(),
                name: value.to_string(),
                tests: tests.clone(),
                edits: Vec::new(),
            }),
            ("tests", Some(fault)) if fault.edits.is_empty() => fault.tests = words(value),
            ("file", Some(fault)) => fault.edits.push(Edit {
                file: value.to_string(),
                ..Edit::default()
            }),
            ("old", Some(fault)) => old_line(fault, last, value).ok_or_else(wrong)?,
            ("new", Some(fault)) => {
                let edit = fault.edits.last_mut().ok_or_else(wrong)?;
                edit.new.extend([value, "\n"]);
            }
            _ => return Err(wrong()),
        }
        last = kind;
    }
    match faults
        .iter()
        .find(|fault| fault.edits.is_empty() || fault.tests.is_empty())
    {
        Some(fault) => Err(format!("{list}: {} has no edit, or no tests", fault.name)),
        None => Ok(faults),
    }
}

fn words(value: &str) -> Vec<String> {
    value.split_whitespace().map(String::from).collect()
}

/// One line more of the old text; behind a new text it begins another edit of the same file.
fn old_line(fault: &mut Fault, last: &str, value: &str) -> Option<()> {
    let edit = fault.edits.last()?;
    if last == "new" {
        let file = edit.file.clone();
        fault.edits.push(Edit {
            file,
            ..Edit::default()
        });
    }
    fault.edits.last_mut()?.old.extend([value, "\n"]);
    Some(())
}

/// The sources with the fault in them, and the crates whose sources are others then.
pub fn planted(fault: &Fault, sources: &Sources) -> Result<(Sources, BTreeSet<String>), String> {
    let mut edited: BTreeMap<_, _> = sources.clone();
    let mut changed = BTreeSet::new();
    for edit in &fault.edits {
        let wrong = |why: &str| format!("{}: {why} {}", fault.name, edit.file);
        let text = edited.get_mut(&edit.file).ok_or_else(|| wrong("no file"))?;
        let (old, new) = (whole(&edit.old), whole(&edit.new));
        match text.matches(old).count() {
            _ if old.is_empty() => return Err(wrong("no old text for")),
            0 => return Err(wrong("the old text is not in")),
            1 => *text = text.replacen(old, new, 1),
            _ => return Err(wrong("the old text is more than once in")),
        }
        let parts = edit.file.split('/').nth(1);
        changed.extend(parts.map(String::from));
    }
    Ok((edited, changed))
}

/// A text of lines without the last one's end.
fn whole(text: &str) -> &str {
    text.strip_suffix('\n').unwrap_or(text)
}
