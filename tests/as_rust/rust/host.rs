//! What the programs take of their host: standard input and output, without a buffer.

use std::fs::File;
use std::io::{stdin, stdout};
use std::os::fd::{AsFd, BorrowedFd};

/// In the place of Rattle's handle of this name.
pub struct HostRuntime;

impl HostRuntime {
    pub fn stdin(&self) -> File {
        unbuffered(stdin().as_fd())
    }

    pub fn stdout(&self) -> File {
        unbuffered(stdout().as_fd())
    }
}

fn unbuffered(stream: BorrowedFd) -> File {
    let stream = stream.try_clone_to_owned();
    File::from(stream.expect("one more descriptor"))
}
