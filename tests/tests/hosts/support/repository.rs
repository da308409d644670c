//! Files of the repository.

use std::fs::read_to_string;
use std::path::Path;

/// The text of the file at this path below the repository's root.
pub fn file(path: &str) -> String {
    let path = Path::new(env!("CARGO_MANIFEST_DIR")).join("..").join(path);
    read_to_string(&path).unwrap_or_else(|error| panic!("{}: {error}", path.display()))
}
