//! Plants faults in the board's text, one at a time, and runs the tests that should see them.
//! The script `tests/plant` runs it in its folder.
//!
//!     plant              every fault of tests/faults
//!     plant NAME..       these faults, or lists of faults
//!     plant --all ..     every test, also those that the fault does not name
//!
//! A line for each fault says which tests saw it, and which of those that should did not. The
//! exit status is 0 only where each was seen by all that should.

use as_rust::compile::{above, whole, Build};
use as_rust::faults::{faults_in, planted, Fault};
use as_rust::running::{modules, Module};
use as_rust::sources::{Text, DRAFT};
use std::collections::{BTreeMap, BTreeSet};
use std::fs::{self, File};
use std::path::{Path, PathBuf};
use std::process::ExitCode;
use std::sync::atomic::{AtomicUsize, Ordering};
use std::sync::Mutex;
use std::thread;
use std::time::{Duration, Instant};

/// The test crates of the library, and the one of the draft program.
const CRATES: [&str; 3] = ["board", "text", "draft"];

/// How long a module may take with no fault.
const LONGEST: Duration = Duration::from_secs(600);

/// What is the same for every fault.
struct Plant {
    package: PathBuf,
    text: Text,
    base: PathBuf,
    modules: Vec<Module>,
    /// How long each module takes with no fault.
    taken: BTreeMap<String, Duration>,
    all: bool,
    /// Locked while faults are planted.
    _lock: File,
}

fn main() -> ExitCode {
    match run(std::env::args().skip(1).collect()) {
        Ok(true) => ExitCode::SUCCESS,
        Ok(false) => ExitCode::FAILURE,
        Err(why) => {
            eprintln!("plant: {why}");
            ExitCode::from(2)
        }
    }
}

/// Plants the faults that the arguments name. Gives whether each was seen.
fn run(mut names: Vec<String>) -> Result<bool, String> {
    let all = names.first().is_some_and(|first| first == "--all");
    names.drain(..usize::from(all));
    let package = std::env::current_dir().map_err(|error| error.to_string())?;
    let mut faults = faults_in(&package.join("faults"))?;
    let text = Text::read(&package.join("..")).map_err(|error| error.to_string())?;
    for fault in &faults {
        planted(fault, &text.sources)?;
    }
    let meant = |fault: &Fault, name: &String| *name == fault.name || *name == fault.list;
    if let Some(none) = names
        .iter()
        .find(|name| !faults.iter().any(|fault| meant(fault, name)))
    {
        return Err(format!("no fault and no list is named {none}"));
    }
    faults.retain(|fault| names.is_empty() || names.iter().any(|name| meant(fault, name)));
    let mut plant = Plant::prepared(package, text, all)?;
    plant.try_without_fault(&faults)?;
    plant.try_all(&faults)
}

impl Plant {
    /// Builds the text with no fault, and the tests.
    fn prepared(package: PathBuf, text: Text, all: bool) -> Result<Plant, String> {
        let base = package.join("target/plant/base");
        let lock = package.join("target/plant/lock");
        fs::create_dir_all(&base).map_err(|error| error.to_string())?;
        let lock = File::create(lock).map_err(|error| error.to_string())?;
        lock.try_lock().map_err(|_| "it is running already")?;
        whole(&package.join(".."), "rustc".into(), &base)?;
        let modules = modules(&package, &CRATES, &base)?;
        Ok(Plant {
            package,
            text,
            base,
            modules,
            taken: BTreeMap::new(),
            all,
            _lock: lock,
        })
    }

    /// Runs the tests that are named on the text with no fault: all must pass.
    fn try_without_fault(&mut self, faults: &[Fault]) -> Result<(), String> {
        let start = Instant::now();
        let known = self.modules.iter().map(|module| &module.name);
        let named = faults.iter().flat_map(|fault| &fault.tests);
        let names: BTreeSet<&String> = match self.all {
            true => known.collect(),
            false => named.collect(),
        };
        let taken = in_parallel(&Vec::from_iter(names), |_, name| {
            let begun = Instant::now();
            match self.passes(name, &self.base, LONGEST)? {
                true => Ok((name.to_string(), begun.elapsed())),
                false => Err(format!("{name} fails on the text with no fault")),
            }
        })?;
        self.taken = taken.into_iter().collect();
        let count = self.taken.len();
        println!("no fault: {count} pass, {:.0?}", start.elapsed());
        Ok(())
    }

    /// Whether the tests of this name pass on what is built in the folder, and else in the base.
    fn passes(&self, name: &str, folder: &Path, most: Duration) -> Result<bool, String> {
        let module = self.modules.iter().find(|module| module.name == name);
        let module = module.ok_or_else(|| format!("no tests are named {name}"))?;
        module.passes(&self.package, [folder, &self.base], most)
    }

    /// Plants each fault. Gives whether each was seen by all tests that should.
    fn try_all(&self, faults: &[Fault]) -> Result<bool, String> {
        let start = Instant::now();
        let seen = in_parallel(faults, |worker, fault| {
            let seen = self.try_fault(worker, fault)?;
            let missed = fault.tests.iter().filter(|name| !seen.contains(name));
            let missed = Vec::from_iter(missed.map(String::as_str));
            let not = ["", " NOT SEEN by "][usize::from(!missed.is_empty())];
            let (name, by) = (&fault.name, seen.join(" "));
            println!("{} {name}: {by}{not}{}", fault.list, missed.join(" "));
            Ok(missed.is_empty())
        })?;
        let count = seen.iter().filter(|seen| **seen).count();
        let (all, taken) = (faults.len(), start.elapsed());
        println!("{all} faults, {count} seen, {taken:.0?}");
        Ok(count == all)
    }

    /// Plants a fault, and runs the tests that should see it, or all tests. Gives those that saw
    /// it.
    fn try_fault(&self, worker: usize, fault: &Fault) -> Result<Vec<String>, String> {
        let folder = self.package.join(format!("target/plant/{worker}"));
        let of_program = self.build(&folder, fault)?;
        let concerned = |module: &&Module| (module.of == DRAFT) == of_program;
        let all = self.modules.iter().filter(concerned);
        let names: Vec<&String> = match self.all {
            true => all.map(|module| &module.name).collect(),
            false => fault.tests.iter().collect(),
        };
        let mut seen = Vec::new();
        for name in names {
            let most = Duration::from_secs(20) + 4 * self.taken[name];
            if !self.passes(name, &folder, most)? {
                seen.push(name.clone());
            }
        }
        Ok(seen)
    }

    /// Builds the text with the fault, as far as it is another then. Gives whether the fault is
    /// the draft program's own.
    fn build(&self, folder: &Path, fault: &Fault) -> Result<bool, String> {
        let (sources, changed) = planted(fault, &self.text.sources)?;
        fs::remove_dir_all(folder).ok();
        let build = Build {
            rustc: "rustc".into(),
            folder: folder.to_path_buf(),
            base: Some(self.base.clone()),
        };
        let of_program = changed.contains(DRAFT);
        let built = if of_program {
            let anew = above(&self.text.draft, &changed);
            build.program(&self.text.draft, &sources, &anew)
        } else {
            let anew = above(&self.text.library, &changed);
            build.library(&self.text.library, &sources, &anew)
        };
        built.map_err(|said| format!("{} does not build: {said}", fault.name))?;
        Ok(of_program)
    }
}

/// What the function gives for each item, by as many threads as there are cores. The first error
/// ends it.
fn in_parallel<T: Sync, R: Send>(
    items: &[T],
    each: impl Fn(usize, &T) -> Result<R, String> + Sync,
) -> Result<Vec<R>, String> {
    let next = AtomicUsize::new(0);
    let results = Mutex::new(Ok(Vec::new()));
    let work = |worker| {
        while let Some(item) = items.get(next.fetch_add(1, Ordering::Relaxed)) {
            let result = each(worker, item);
            let mut results = results.lock().expect("no thread has failed");
            match (result, results.as_mut()) {
                (Ok(result), Ok(all)) => all.push(result),
                (Err(why), Ok(_)) => {
                    *results = Err(why);
                    next.store(items.len(), Ordering::Relaxed);
                }
                (_, Err(_)) => {}
            }
        }
    };
    let workers = thread::available_parallelism().map_or(1, usize::from);
    thread::scope(|scope| {
        for worker in 0..workers {
            scope.spawn(move || work(worker));
        }
    });
    results.into_inner().expect("no thread has failed")
}
