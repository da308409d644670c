//! rustc on the text: a shared library of the board, and the programs. Every overflow and
//! every index is checked, and so is what rustc asserts of itself in debug builds.

use crate::sources::{Crate, Sources, Text};
use crate::text::rust_of;
use std::collections::BTreeSet;
use std::fs;
use std::path::{Path, PathBuf};
use std::process::Command;

/// The name of the shared library.
pub const SHARED: &str = "board_text";

/// What stands around the text: the C functions, and a program's host, by its name in the text.
const EXPORTS: &str = include_str!("../rust/exports.rs");
const HOST: &str = include_str!("../rust/host.rs");
const HOST_NAME: &str = "host";

const FLAGS: [&str; 6] = [
    "--edition=2021",
    "--cap-lints=allow",
    "-Copt-level=2",
    "-Ccodegen-units=1",
    "-Coverflow-checks=on",
    "-Cdebug-assertions=on",
];

/// A folder to build in, and the compiler.
pub struct Build {
    pub rustc: PathBuf,
    pub folder: PathBuf,
    /// Where crates are found that are not made here.
    pub base: Option<PathBuf>,
}

/// The file that was made, or what the compiler said.
pub type Made = Result<PathBuf, String>;

/// What rustc is to make of a crate.
#[derive(Clone, Copy)]
enum Kind {
    Crate,
    Shared,
    Program,
}

impl Kind {
    /// Its name for rustc, the file of a crate of this name, and the root of its sources.
    fn names(self, name: &str) -> (&'static str, String, &'static str) {
        match self {
            Kind::Crate => ("rlib", format!("lib{name}.rlib"), "lib.rs"),
            Kind::Shared => ("cdylib", format!("lib{name}.so"), "lib.rs"),
            Kind::Program => ("bin", name.to_string(), "main.rs"),
        }
    }
}

/// Compiles the whole text in the folder: the shared library and the programs.
pub fn whole(root: &Path, rustc: PathBuf, folder: &Path) -> Result<(), String> {
    let text = Text::read(root).map_err(|error| error.to_string())?;
    let build = Build {
        rustc,
        folder: folder.to_path_buf(),
        base: None,
    };
    let mut made = names(&text.library);
    build.library(&text.library, &text.sources, &made)?;
    for program in [&text.draft, &text.edges] {
        let all = names(program);
        let anew = all.difference(&made).cloned().collect();
        build.program(program, &text.sources, &anew)?;
        made.extend(all);
    }
    Ok(())
}

fn names(crates: &[Crate]) -> BTreeSet<String> {
    crates.iter().map(|each| each.name.clone()).collect()
}

/// The crates among these that are to be made anew where some have changed.
pub fn above(crates: &[Crate], changed: &BTreeSet<String>) -> BTreeSet<String> {
    let stands_on = |each: &Crate| each.needs.iter().any(|need| changed.contains(need));
    let anew = |each: &&Crate| changed.contains(&each.name) || stands_on(each);
    crates
        .iter()
        .filter(anew)
        .map(|each| each.name.clone())
        .collect()
}

impl Build {
    /// The shared library, of these sources. The crates `anew` are compiled here, the others are
    /// taken from the base.
    pub fn library(&self, crates: &[Crate], sources: &Sources, anew: &BTreeSet<String>) -> Made {
        self.crates(crates, sources, anew)?;
        let exports = self.write("exports", EXPORTS)?;
        let needs = Vec::from_iter(names(crates));
        self.rustc(&exports, SHARED, Kind::Shared, &needs)
    }

    /// The program that is the last of these crates, in the same way.
    pub fn program(&self, crates: &[Crate], sources: &Sources, anew: &BTreeSet<String>) -> Made {
        let (program, libraries) = crates.split_last().ok_or("no program")?;
        self.crates(libraries, sources, anew)?;
        let host = self.write(HOST_NAME, HOST)?;
        self.rustc(&host, HOST_NAME, Kind::Crate, &[])?;
        let mut program = program.clone();
        program.needs.push(HOST_NAME.to_string());
        self.compile(&program, sources, Kind::Program)
    }

    fn crates(
        &self,
        of: &[Crate],
        sources: &Sources,
        anew: &BTreeSet<String>,
    ) -> Result<(), String> {
        for each in of.iter().filter(|each| anew.contains(&each.name)) {
            self.compile(each, sources, Kind::Crate)?;
        }
        Ok(())
    }

    /// Writes a crate as Rust and compiles it.
    fn compile(&self, each: &Crate, sources: &Sources, kind: Kind) -> Made {
        let below = format!("crates/{}/src/", each.name);
        for (path, source) in sources {
            let Some(file) = path.strip_prefix(&below) else {
                continue;
            };
            let rust = rust_of(source).map_err(|unknown| format!("{path}, {unknown}"))?;
            let module = file
                .strip_suffix(".rt")
                .ok_or_else(|| format!("{path} is no .rt file"))?;
            self.write(&format!("{}/{module}", each.name), &rust)?;
        }
        let (_, _, root) = kind.names(&each.name);
        let root = self.folder.join("src").join(&each.name).join(root);
        self.rustc(&root, &each.name, kind, &each.needs)
    }

    fn write(&self, module: &str, rust: &str) -> Made {
        let path = self.folder.join("src").join(format!("{module}.rs"));
        let folder = path.parent().expect("a file in a folder");
        let written = fs::create_dir_all(folder).and_then(|()| fs::write(&path, rust));
        written.map_err(|error| format!("{}: {error}", path.display()))?;
        Ok(path)
    }

    fn rustc(&self, root: &Path, name: &str, kind: Kind, needs: &[String]) -> Made {
        let (kind, file, _) = kind.names(name);
        let made = self.folder.join(file);
        let mut command = Command::new(&self.rustc);
        command
            .args(FLAGS)
            .args(["--crate-name", name, "--crate-type", kind]);
        command.arg("-o").arg(&made).arg("-L").arg(&self.folder);
        command.args(self.base.iter().flat_map(|base| [Path::new("-L"), base]));
        for need in needs.iter().filter(|need| *need != name) {
            if let Some(found) = self.find(need) {
                command
                    .arg("--extern")
                    .arg(format!("{need}={}", found.display()));
            }
        }
        let output = command.arg(root).output();
        let output = output.map_err(|error| format!("{}: {error}", self.rustc.display()))?;
        if !output.status.success() {
            return Err(String::from_utf8_lossy(&output.stderr).into_owned());
        }
        Ok(made)
    }

    /// Where a crate is that has been made.
    fn find(&self, name: &str) -> Option<PathBuf> {
        let (_, file, _) = Kind::Crate.names(name);
        let folders = [Some(&self.folder), self.base.as_ref()];
        let mut paths = folders
            .into_iter()
            .flatten()
            .map(|folder| folder.join(&file));
        paths.find(|path| path.is_file())
    }
}
