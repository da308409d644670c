//! Links the static library that `rt lib` writes in `crates/drive`, from the folder in
//! `DRIVE_LIB_DIR`, or else from `../crates/drive/out`.

use std::env;
use std::path::PathBuf;
use std::process::exit;

fn main() {
    let folder = env::var_os("DRIVE_LIB_DIR")
        .filter(|folder| !folder.is_empty())
        .map_or_else(|| PathBuf::from("../crates/drive/out"), PathBuf::from);
    let archive = folder.join("libdrive.a");
    println!("cargo:rerun-if-env-changed=DRIVE_LIB_DIR");
    println!("cargo:rerun-if-changed={}", archive.display());
    if !archive.is_file() {
        eprintln!("no {}: run `rt lib` in crates/drive", archive.display());
        exit(1);
    }
    println!("cargo:rustc-link-search=native={}", folder.display());
    println!("cargo:rustc-link-lib=static=drive");
}
