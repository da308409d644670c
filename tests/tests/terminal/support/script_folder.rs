//! The script `draft` or `board` in a folder of its own, beside its executable and no
//! source, so that nothing is proved or built, however old the executable is.

use comparison::support::executables::{console_program, draft_program};
use comparison::support::own_name::own_name;
use std::env;
use std::fs::{create_dir_all, remove_dir_all, rename, write};
use std::os::unix::fs::symlink;
use std::path::{Path, PathBuf};
use std::process::Command;

/// Stands in for each step of a build: ends once the executable is there, and then has
/// made the library and what cargo makes, or fails at last.
const STEP: &str = r#"
    cd "$FOLDER"
    for look in $(seq 3000); do [ -e PROGRAM ] && break; sleep 0.01; done
    mkdir -p crates/drive/out target/console/release
    : >crates/drive/out/libdrive.a
    cp PROGRAM target/console/release
"#;

/// The folder, which is removed when its test ends, and the script's name.
pub struct Folder {
    path: PathBuf,
    script: &'static str,
}

impl Folder {
    /// A folder with the script and the executable.
    pub fn new(script: &'static str, name: &str) -> Folder {
        let folder = Folder::unbuilt(script, name);
        folder.build();
        folder
    }

    /// A folder with the script alone. The `rt` and the `cargo` that it calls there are
    /// the shell, which is given a stand-in of the step to run, where the step runs.
    pub fn unbuilt(script: &'static str, name: &str) -> Folder {
        let folder = own_name(&format!("{script}_{name}"));
        let path = Path::new(env!("CARGO_TARGET_TMPDIR")).join(folder);
        remove_dir_all(&path).ok();
        for part in ["crates/drive", "crates/draft", "rust", "console"] {
            create_dir_all(path.join(part)).expect("a folder of sources");
        }
        for part in ["bin", "temporary"] {
            create_dir_all(path.join(part)).expect("a folder to run in");
        }
        write(path.join("crates.txt"), "").expect("room for a file");
        for step in ["crates/draft/run", "crates/drive/lib", "build"] {
            let text = STEP.replace("PROGRAM", program_of(script));
            write(path.join(step), text).expect("room for a file");
        }
        for tool in ["rt", "cargo"] {
            symlink("/bin/sh", path.join("bin").join(tool)).expect("room for a link");
        }
        copy(&Path::new("..").join(script), &path.join(script));
        Folder { path, script }
    }

    /// Puts the executable in its place.
    pub fn build(&self) {
        let made = self.path.join("made");
        copy(&executable_of(self.script), &made);
        let place = self.program();
        let folder = place.parent().expect("a folder for it");
        create_dir_all(folder).expect("a folder for it");
        rename(made, place).expect("the executable in its place");
    }

    /// The script's name.
    pub fn script(&self) -> &'static str {
        self.script
    }

    /// The place of the executable.
    pub fn program(&self) -> PathBuf {
        self.path.join(program_of(self.script))
    }

    /// The folder itself.
    pub fn path(&self) -> &Path {
        &self.path
    }

    /// The command with this path in the folder, with the folder's own place for
    /// temporary files.
    pub fn command(&self, path: impl AsRef<Path>) -> Command {
        let rest = env::var("PATH").unwrap_or_default();
        let mut command = Command::new(self.path.join(path));
        command
            .current_dir(&self.path)
            .env(
                "PATH",
                format!("{}:{rest}", self.path.join("bin").display()),
            )
            .env("TMPDIR", self.path.join("temporary"))
            .env("FOLDER", &self.path);
        command
    }
}

impl Drop for Folder {
    fn drop(&mut self) {
        remove_dir_all(&self.path).ok();
    }
}

/// The place of the program that the script runs.
fn program_of(script: &str) -> &'static str {
    match script {
        "draft" => "crates/draft/out/draft",
        _ => "target/bin/console",
    }
}

/// The executable that was built for the script.
fn executable_of(script: &str) -> PathBuf {
    match script {
        "draft" => draft_program(),
        _ => console_program(),
    }
}

/// Copies by a process of its own: while this one has a file open for writing, as any
/// child has for a moment that another test starts then, the file cannot be run.
fn copy(from: &Path, to: &Path) {
    let status = Command::new("cp").arg(from).arg(to).status();
    let copied = status.expect("cp runs").success();
    assert!(copied, "{} is not copied", from.display());
}
