//! Names for the files of a test.

use std::process::id;
use std::sync::atomic::{AtomicUsize, Ordering};

/// A name that opens with this one: no other process that runs has it, nor has any other
/// test of this process.
pub fn own_name(name: &str) -> String {
    static GIVEN: AtomicUsize = AtomicUsize::new(0);
    let count = GIVEN.fetch_add(1, Ordering::Relaxed);
    format!("{name}_{}_{count}", id())
}
