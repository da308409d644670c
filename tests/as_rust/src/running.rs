//! The tests that are run on planted faults, by the modules of their test crates.

use crate::sources::DRAFT;
use std::collections::BTreeMap;
use std::env;
use std::io::{BufRead, BufReader};
use std::path::{Path, PathBuf};
use std::process::{Child, Command, Stdio};
use std::sync::mpsc::{channel, Receiver, RecvTimeoutError};
use std::thread;
use std::time::{Duration, Instant};

/// The tests of a module.
pub struct Module {
    pub name: String,
    /// The crate that it is in.
    pub of: String,
    program: PathBuf,
    tests: Vec<String>,
}

/// Builds these test crates of a package, and gives their modules. They take the text from where
/// it is built.
pub fn modules(package: &Path, crates: &[&str], built: &Path) -> Result<Vec<Module>, String> {
    let mut cargo = Command::new("cargo");
    cargo.args(["test", "--release", "--offline", "--no-run"]);
    cargo.args(crates.iter().flat_map(|name| ["--test", name]));
    let output = cargo.current_dir(package).output();
    let output = output.map_err(|error| format!("cargo: {error}"))?;
    let said = String::from_utf8_lossy(&output.stderr);
    if !output.status.success() {
        return Err(said.into_owned());
    }
    let mut found = Vec::new();
    for name in crates {
        let start = format!("Executable tests/{name}/main.rs (");
        let line = said
            .lines()
            .find_map(|line| line.trim().strip_prefix(&start));
        let path = line.and_then(|line| line.strip_suffix(')'));
        let path = path.ok_or_else(|| format!("no test crate {name}: {said}"))?;
        found.extend(modules_of(name, &package.join(path), built)?);
    }
    Ok(found)
}

/// The modules of a test crate, by the names of its tests.
fn modules_of(name: &str, program: &Path, built: &Path) -> Result<Vec<Module>, String> {
    let mut command = Command::new(program);
    command.args(["--list", "--format", "terse"]);
    let list = command.env("LD_LIBRARY_PATH", built).output();
    let list = list.map_err(|error| format!("{}: {error}", program.display()))?;
    if !list.status.success() {
        return Err(String::from_utf8_lossy(&list.stderr).into_owned());
    }
    let list = String::from_utf8_lossy(&list.stdout);
    let mut modules: BTreeMap<&str, Vec<String>> = BTreeMap::new();
    for test in list.lines().filter_map(|line| line.strip_suffix(": test")) {
        let (module, _) = test.split_once("::").unwrap_or((name, ""));
        modules.entry(module).or_default().push(test.to_string());
    }
    let modules = modules.into_iter().map(|(module, tests)| Module {
        name: module.to_string(),
        of: name.to_string(),
        program: program.to_path_buf(),
        tests,
    });
    Ok(modules.collect())
}

impl Module {
    /// Runs the tests one by one, on the text that is built in these folders, the first of them
    /// where both have a part, up to the first that fails. Gives whether all pass in so much time;
    /// the program may end by a signal too.
    pub fn passes(
        &self,
        package: &Path,
        built: [&Path; 2],
        most: Duration,
    ) -> Result<bool, String> {
        let folders = env::join_paths(built).map_err(|error| error.to_string())?;
        let programs = built.map(|folder| folder.join(DRAFT));
        let draft = programs.iter().find(|path| path.is_file());
        let mut command = Command::new(&self.program);
        command
            .args(["--test-threads=1", "--exact"])
            .args(&self.tests);
        command
            .env("BOARD_TEXT", "1")
            .env("LD_LIBRARY_PATH", folders);
        command.envs(draft.map(|path| ("DRAFT_PROGRAM", path)));
        command.current_dir(package).stdin(Stdio::null());
        let child = command.stdout(Stdio::piped()).stderr(Stdio::null()).spawn();
        let mut child = child.map_err(|error| format!("{}: {error}", self.program.display()))?;
        let ended = ends(&mut child, Instant::now() + most);
        if !ended {
            child.kill().ok();
        }
        let status = child.wait().map_err(|error| error.to_string())?;
        match status.code() {
            _ if !ended => Ok(false),
            Some(0) => Ok(true),
            Some(101) | None => Ok(false),
            Some(other) => Err(format!("{} ended with status {other}", self.name)),
        }
    }
}

/// Whether the program ends by that time and before a test fails.
fn ends(child: &mut Child, until: Instant) -> bool {
    let lines = lines_of(child);
    loop {
        match lines.recv_timeout(until.saturating_duration_since(Instant::now())) {
            Ok(line) if line.ends_with("FAILED") => return false,
            Ok(_) => {}
            Err(RecvTimeoutError::Timeout) => return false,
            Err(RecvTimeoutError::Disconnected) => return true,
        }
    }
}

/// What the program prints, line by line.
fn lines_of(child: &mut Child) -> Receiver<String> {
    let (send, lines) = channel();
    let output = child.stdout.take().expect("a pipe");
    thread::spawn(move || {
        let printed = BufReader::new(output).lines().map_while(Result::ok);
        printed
            .take_while(|line| send.send(line.clone()).is_ok())
            .last()
    });
    lines
}
