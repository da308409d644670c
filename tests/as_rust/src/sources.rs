//! The crates' sources.

use std::collections::BTreeMap;
use std::fs;
use std::io;
use std::path::{Path, PathBuf};

/// The crate of the board's C functions, and those of the programs: the draft program, and the
/// one that makes the calls by value.
pub const LIBRARY: &str = "drive";
pub const DRAFT: &str = "draft";
pub const EDGES: &str = "edges";

/// The text that is compiled: the crates of the library, those of the programs, and the sources
/// of all.
pub struct Text {
    pub library: Vec<Crate>,
    pub draft: Vec<Crate>,
    pub edges: Vec<Crate>,
    pub sources: Sources,
}

impl Text {
    /// Reads it below the root of the repository.
    pub fn read(root: &Path) -> io::Result<Text> {
        let library = crates_of(root, LIBRARY)?;
        let draft = crates_of(root, DRAFT)?;
        let edges = crates_of(root, EDGES)?;
        let mut sources = Sources::new();
        for each in library.iter().chain(&draft).chain(&edges) {
            let folder = PathBuf::from("crates").join(&each.name).join("src");
            read_folder(root, &folder, &mut sources)?;
        }
        Ok(Text {
            library,
            draft,
            edges,
            sources,
        })
    }
}

/// A crate of crates.txt: its name, and what it stands on.
#[derive(Clone, Debug)]
pub struct Crate {
    pub name: String,
    pub needs: Vec<String>,
}

/// The crates that a crate stands on, and it, in the order of crates.txt. What crates.txt does
/// not list is of the toolchain, and is left out.
fn crates_of(root: &Path, last: &str) -> io::Result<Vec<Crate>> {
    let list = fs::read_to_string(root.join("crates.txt"))?;
    let lines = list.lines().filter(|line| !line.starts_with('#'));
    let all = lines.filter_map(|line| line.split_once(':'));
    let all: Vec<Crate> = all.map(|(name, needs)| named(name, needs)).collect();
    let of = all.iter().find(|found| found.name == last);
    let of = of.ok_or_else(|| io::Error::other(format!("crates.txt: no crate {last}")))?;
    let taken = |found: &&Crate| of.needs.contains(&found.name) || found.name == last;
    Ok(all.iter().filter(taken).cloned().collect())
}

/// What stands behind the name of a static library.
const STATIC: &str = " staticlib";

fn named(name: &str, needs: &str) -> Crate {
    let name = name.trim();
    Crate {
        name: name.strip_suffix(STATIC).unwrap_or(name).to_string(),
        needs: needs.split_whitespace().map(String::from).collect(),
    }
}

/// Texts by their path from the root, as `crates/cells/src/lib.rt`.
pub type Sources = BTreeMap<String, String>;

fn read_folder(root: &Path, folder: &Path, sources: &mut Sources) -> io::Result<()> {
    for entry in fs::read_dir(root.join(folder))? {
        let entry = entry?;
        let path = folder.join(entry.file_name());
        if entry.file_type()?.is_dir() {
            read_folder(root, &path, sources)?;
        } else {
            let text = fs::read_to_string(root.join(&path))?;
            sources.insert(path.to_string_lossy().into_owned(), text);
        }
    }
    Ok(())
}
