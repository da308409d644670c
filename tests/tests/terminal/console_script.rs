//! The script `board` away from a terminal: its arguments, links to it, and when it builds.

use crate::support::script::{assert_help, output_of};
use crate::support::script_folder::Folder;
use std::fs::{copy, create_dir_all, read, write};
use std::os::unix::fs::symlink;
use std::process::Command;

/// What `--help` prints.
const HELP: &str = "console/help.txt";

/// A line that is answered before any start, and its answer.
const LINE: &str = "show AB 2 1 2\n";
const ANSWER: &str = "ok | B\n";

/// Asserts that the script, run in the folder with these arguments, answers a line so, and
/// says nothing else.
fn assert_answers(folder: &Folder, arguments: &[&str], line: &str, answer: &str) {
    let mut command = folder.command("board");
    command.args(arguments);
    let output = output_of(command, line);
    assert_eq!(String::from_utf8_lossy(&output.stdout), answer, "{line}");
    assert_eq!(String::from_utf8_lossy(&output.stderr), "", "{line}");
    assert_eq!(output.status.code(), Some(0), "{line}");
}

/// The folders of the sources, their list, and the stand-ins for steps among them.
const SOURCES: [&str; 6] = [
    "crates",
    "crates.txt",
    "rust",
    "console",
    "crates/draft/run",
    "crates/drive/lib",
];

/// What cargo and rt write to beside the sources.
const MADE: [&str; 3] = ["rust/target", "console/target", "crates/drive/out"];

/// A folder with the script, sources of long ago, and an executable that is newer.
fn built_before(name: &str) -> Folder {
    let folder = Folder::new("board", name);
    for part in MADE {
        create_dir_all(folder.path().join(part)).expect("a folder");
    }
    for (time, paths) in [
        ("2 hours ago", &SOURCES[..]),
        ("1 hour ago", &["target/bin/console"]),
    ] {
        let mut touch = Command::new("touch");
        touch
            .current_dir(folder.path())
            .args(["-d", time])
            .args(paths);
        let status = touch.status().expect("touch runs");
        assert!(status.success(), "not made older: {paths:?}");
    }
    folder
}

/// The same text for `--help` on standard output and for any other argument but `--all` on
/// standard error; neither needs the program.
#[test]
fn arguments() {
    let folder = Folder::unbuilt("board", "arguments");
    let help = read("../console/help.txt").expect("the help text");
    copy("../console/help.txt", folder.path().join(HELP)).expect("a copy of it");
    let others: [&[&str]; 4] = [&["8"], &[""], &["-h"], &["--all", "--all"]];
    assert_eq!(assert_help(&folder, &others, LINE), help);
}

/// With `--all` and without.
#[test]
fn all_that_is_lent() {
    let folder = Folder::new("board", "all");
    assert_answers(&folder, &[], "feed A 2\n", "refused 7\n");
    let all = "refused 7 | 60000 60001\n";
    assert_answers(&folder, &["--all"], "feed A 2\n", all);
}

/// A link to the script, and a link to its folder.
#[test]
fn symbolic_links() {
    let folder = Folder::new("board", "links");
    for (link, target) in [("bin/console", "../board"), ("bin/folder", "..")] {
        symlink(target, folder.path().join(link)).expect("a link");
    }
    for path in ["bin/console", "bin/folder/board"] {
        let output = output_of(folder.command(path), LINE);
        assert_eq!(output.stdout, ANSWER.as_bytes(), "{path}");
        assert_eq!(output.status.code(), Some(0), "{path}");
    }
}

/// A source that is newer than the program is built, once; what cargo and rt write beside
/// the sources is none.
#[test]
fn newer_sources() {
    for source in ["crates/new", "crates.txt", "rust/new", "console/new"] {
        let folder = built_before("newer");
        for part in MADE {
            write(folder.path().join(part).join("made"), "").expect("room for a file");
        }
        assert_answers(&folder, &[], LINE, ANSWER);
        let begun = folder.path().join("target/console.begun");
        assert!(!begun.exists(), "built with no newer source");
        write(folder.path().join(source), "").expect("room for a file");
        let output = output_of(folder.command("board"), LINE);
        assert_eq!(output.stdout, ANSWER.as_bytes(), "{source}");
        assert!(begun.exists(), "not built though {source} is newer");
        assert_answers(&folder, &[], LINE, ANSWER);
    }
}

/// What a failed step printed is shown, with the step; the program is not run.
#[test]
fn a_step_that_fails() {
    for (step, name) in [("crates/drive/lib", "rt lib"), ("build", "cargo build")] {
        let folder = built_before("failed");
        let newer = folder.path().join("crates/new");
        write(newer, "").expect("room for a file");
        let failing = "echo what is wrong; exit 3";
        write(folder.path().join(step), failing).expect("room for a file");
        let output = output_of(folder.command("board"), LINE);
        let said = String::from_utf8_lossy(&output.stderr);
        assert!(said.contains("what is wrong\n"), "{step}: {said}");
        assert!(said.contains(name), "{step}: {said}");
        assert_eq!(output.stdout, b"", "{step}");
        assert_eq!(output.status.code(), Some(1), "{step}");
    }
}
