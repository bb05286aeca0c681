//! Links the static library `ludopoplar` that the repository's proof tool makes.

use std::env;
use std::path::{Path, PathBuf};

const DIRECTORY_VARIABLE: &str = "LUDOPOPLAR_LIB_DIR";

fn main() {
    let directory = library_directory();
    let archive = directory.join("libludopoplar.a");
    println!("cargo:rerun-if-env-changed={DIRECTORY_VARIABLE}");
    println!("cargo:rerun-if-changed={}", archive.display());
    if !archive.is_file() {
        eprintln!(
            "error: {} is missing: run `rt lib` in the repository's crates/ludopoplar first, \
             or set {DIRECTORY_VARIABLE} to the directory that holds libludopoplar.a",
            archive.display()
        );
        std::process::exit(1);
    }
    println!("cargo:rustc-link-search=native={}", directory.display());
    println!("cargo:rustc-link-lib=static=ludopoplar");
}

/// The variable's directory, else where `rt lib` puts the archive.
fn library_directory() -> PathBuf {
    if let Some(directory) = env::var_os(DIRECTORY_VARIABLE) {
        return PathBuf::from(directory);
    }
    let member = env::var_os("CARGO_MANIFEST_DIR").expect("cargo sets CARGO_MANIFEST_DIR");
    Path::new(&member).join("../../crates/ludopoplar/out")
}
