//! Compiles the C peer with the compiler that CC names, or cc: -O3 and the x86-64 baseline, as the Rust peer has it. Where BEFORE names
//! another archive of ours, it and ours are linked too, four times each.

use std::{env, path::Path, path::PathBuf, process::Command};

const FLAGS: [&str; 6] = ["-std=c11", "-O3", "-Wall", "-Wextra", "-Wpedantic", "-Werror"];
const FILES: [&str; 5] = ["read", "window", "lattice", "count", "clock"];

fn main() {
    println!("cargo:rerun-if-changed=c");
    println!("cargo:rerun-if-env-changed=CC");
    let out = PathBuf::from(env::var("OUT_DIR").unwrap());
    let objects: Vec<PathBuf> = FILES.iter().map(|file| compile(file, &out)).collect();
    let archive = out.join("libpeer_c.a");
    must(Command::new("ar").arg("crs").arg(&archive).args(&objects));
    println!("cargo:rustc-link-search=native={}", out.display());
    println!("cargo:rustc-link-lib=static=peer_c");
    println!("cargo:rustc-check-cfg=cfg(before)");
    println!("cargo:rerun-if-env-changed=BEFORE");
    if let Ok(before) = env::var("BEFORE") {
        place("../target/staticlib/libconsole.a", "ours", &out);
        place(&before, "before", &out);
        println!("cargo:rustc-cfg=before");
    }
}

/// The calls of an archive at four places, under this name.
fn place(archive: &str, name: &str, out: &Path) {
    println!("cargo:rerun-if-changed={archive}");
    must(Command::new("bash").args(["place", archive, name]).arg(out));
    println!("cargo:rustc-link-lib=static={name}");
}

fn compile(file: &str, out: &Path) -> PathBuf {
    let object = out.join(format!("{file}.o"));
    let compiler = env::var("CC").unwrap_or_else(|_| "cc".into());
    must(Command::new(compiler).args(FLAGS).arg("-c").arg(format!("c/{file}.c")).arg("-o").arg(&object));
    object
}

fn must(command: &mut Command) {
    let done = command.status().is_ok_and(|status| status.success());
    assert!(done, "failed: {command:?}");
}
