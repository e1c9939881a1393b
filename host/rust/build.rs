//! Links libhost_calls.a, the archive that `host/archive` writes to target/staticlib.
//! TOZHENAB_ARCHIVE_DIR names another directory that holds it.

use std::path::PathBuf;
use std::{env, process};

fn archive_directory() -> PathBuf {
    match env::var_os("TOZHENAB_ARCHIVE_DIR") {
        Some(directory) => directory.into(),
        None => PathBuf::from(env!("CARGO_MANIFEST_DIR")).join("../../target/staticlib"),
    }
}

fn main() {
    let directory = archive_directory();
    let archive = directory.join("libhost_calls.a");
    println!("cargo:rerun-if-env-changed=TOZHENAB_ARCHIVE_DIR");
    println!("cargo:rerun-if-changed={}", archive.display());
    if !archive.is_file() {
        eprintln!("{} is not there: run host/archive", archive.display());
        process::exit(1);
    }
    println!("cargo:rustc-link-search=native={}", directory.display());
    println!("cargo:rustc-link-lib=static=host_calls");
}
