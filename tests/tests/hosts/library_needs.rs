//! What the static library needs from outside: `memset`, as docs/HOSTS.md says, and nothing
//! else. An array of the state that a call copies whole is a `memcpy` or a `memmove`.

use crate::support::archive::archive;
use std::process::Command;

/// The names that the objects of an archive need from outside.
fn needed(archive: &str) -> Vec<String> {
    let output = Command::new("nm").args(["-u", archive]).output();
    let output = output.expect("nm, which comes with gcc");
    let said = String::from_utf8_lossy(&output.stderr);
    assert!(output.status.success(), "nm -u {archive}: {said}");
    String::from_utf8_lossy(&output.stdout)
        .lines()
        .filter_map(|line| line.trim().strip_prefix("U ").map(str::to_owned))
        .collect()
}

#[test]
fn memset_alone() {
    let library = archive();
    let library = library.to_str().expect("a path in UTF-8");
    assert_eq!(needed(library), ["memset"], "{library}");
}
