//! Where the static library is.

use std::env;
use std::path::PathBuf;

/// The archive in `DRIVE_LIB_DIR`, or else in `../crates/drive/out`.
pub fn archive() -> PathBuf {
    env::var_os("DRIVE_LIB_DIR")
        .filter(|folder| !folder.is_empty())
        .map_or_else(|| PathBuf::from("../crates/drive/out"), PathBuf::from)
        .join("libdrive.a")
}
