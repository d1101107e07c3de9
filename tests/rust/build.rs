//! Links the archive of the flat calls. SHORTLIST_ARCHIVE names another directory: tests/rust/wrong tries archives with a fault.

use std::{env, path::PathBuf};

fn main() {
    println!("cargo:rerun-if-env-changed=SHORTLIST_ARCHIVE");
    let root = PathBuf::from(env::var("CARGO_MANIFEST_DIR").unwrap()).join("../..");
    let directory = env::var("SHORTLIST_ARCHIVE").map_or_else(|_| root.join("target/staticlib"), PathBuf::from);
    let archive = directory.join("libconsole.a");
    println!("cargo:rerun-if-changed={}", archive.display());
    if !archive.is_file() {
        eprintln!("libconsole.a is missing in {}: run `make archive` first", directory.display());
        std::process::exit(1);
    }
    println!("cargo:rustc-link-search=native={}", directory.display());
    println!("cargo:rustc-link-lib=static=console");
}
