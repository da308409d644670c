//! The script `draft` away from a terminal: on a pipe or a file it is the executable; its
//! arguments; links to it.

use crate::support::script::{assert_help, output_of};
use crate::support::script_folder::Folder;
use comparison::draft::run;
use comparison::samples::repeated;
use comparison::support::draft_process::{on_shared_file, on_shared_pipe, printed_on};
use comparison::MOST_PICKS;
use std::fs::create_dir;
use std::os::unix::fs::symlink;

/// Inputs that end a run in each way, some with more behind that.
fn inputs() -> Vec<Vec<u8>> {
    let full = [b"8\n".to_vec(), repeated(b"AAB", MOST_PICKS)].concat();
    vec![
        b"8\nABABABA\nmore after it\n".to_vec(),
        b"8\nAB?BA\nmore\n".to_vec(),
        b"8\nAB\x04A\n".to_vec(),
        b"8\nABA".to_vec(),
        b"8\n\0A\n".to_vec(),
        [full.as_slice(), b"AB\n"].concat(),
    ]
}

/// On a pipe the script prints what the executable prints, and leaves what stands behind
/// the byte that ends the run.
#[test]
fn a_pipe_as_input() {
    let folder = Folder::new("draft", "pipe");
    for input in inputs() {
        let case = format!("input {:?}", String::from_utf8_lossy(&input));
        let (printed, left) = on_shared_pipe(folder.command("draft"), &input, &case);
        assert_eq!(printed, printed_on(&input, &case), "{case}");
        assert_eq!(left, input[run(&input).read..], "bytes left, {case}");
    }
}

/// On a file too, and it reads no byte past the one that ends the run.
#[test]
fn a_file_as_input() {
    let folder = Folder::new("draft", "file");
    let path = folder.path().join("input");
    for input in inputs() {
        let case = format!("input {:?}", String::from_utf8_lossy(&input));
        let (printed, place) = on_shared_file(folder.command("draft"), &path, &input, &case);
        assert_eq!(printed, printed_on(&input, &case), "{case}");
        assert_eq!(place, run(&input).read as u64, "bytes read, {case}");
    }
}

/// The same text for `--help` on standard output and for any other argument on standard
/// error; neither needs the program.
#[test]
fn arguments() {
    let folder = Folder::unbuilt("draft", "arguments");
    let others: [&[&str]; 5] = [
        &["8"],
        &[""],
        &["-h"],
        &["--help", "--help"],
        &["--", "--help"],
    ];
    let help = assert_help(&folder, &others, "");
    assert!(help.starts_with(b"usage: draft"));
}

/// Links to the script, to a link, and to its folder, absolute and relative.
#[test]
fn symbolic_links() {
    let folder = Folder::new("draft", "links");
    let elsewhere = folder.path().join("else where");
    create_dir(&elsewhere).expect("one more folder");
    for (link, target) in [
        ("absolute", folder.path().join("draft")),
        ("relative", "../draft".into()),
        ("-to a link", "relative".into()),
        ("folder", "..".into()),
    ] {
        symlink(target, elsewhere.join(link)).expect("a link");
    }
    for link in ["absolute", "relative", "-to a link", "folder/draft"] {
        let output = output_of(folder.command(elsewhere.join(link)), "");
        assert_eq!(output.stdout, run(b"").output, "{link}");
        assert_eq!(output.status.code(), Some(0), "{link}");
    }
    symlink("../else where/-to a link", folder.path().join("bin/third")).expect("a link");
    let mut command = folder.command("/bin/sh");
    command.args(["-c", "third"]);
    let output = output_of(command, "");
    assert_eq!(output.stdout, run(b"").output, "by the path");
}
