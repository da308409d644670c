//! Programs in C over the header and the library.

use crate::support::archive::archive;
use crate::support::compiled::{compiler, folder};
use comparison::support::own_name::own_name;
use std::fs::rename;
use std::path::{Path, PathBuf};

/// The program of this source, built by this command under this name, with the library.
pub fn program(command: &str, source: &str, name: &str) -> PathBuf {
    let library = archive();
    let made = folder().join(own_name(name));
    let [to, source, kind, other] = ["-o", source, "-x", "none"].map(Path::new);
    let output = compiler(command, &[to, &made, source, kind, other, &library]);
    let said = String::from_utf8_lossy(&output.stderr);
    assert!(output.status.success(), "{command}: {said}");
    let program = folder().join(name);
    rename(made, &program).expect("the program in its place");
    program
}
