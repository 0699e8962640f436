//! Links the static library `libexports.a`. `tests/library` of the repository says where it is, and
//! builds it first where it is missing or older than the crates it is made of.
//!
//! The packages beside this one build with this script too: `compare` itself, `bench` through `compare`.

use std::env;
use std::fs;
use std::path::{Path, PathBuf};
use std::process::Command;

fn main() {
    println!("cargo::rerun-if-env-changed=MATRIX_LIB_DIR");
    if let Some(folder) = env::var_os("MATRIX_LIB_DIR") {
        let archive = Path::new(&folder).join("libexports.a");
        println!("cargo::rerun-if-changed={}", archive.display());
    }
    for path in ["../tests/library", "../crates.txt"] {
        println!("cargo::rerun-if-changed={path}");
    }
    let made = library();
    for path in parts() {
        println!("cargo::rerun-if-changed={}", path.display());
    }
    match made {
        Ok(folder) => {
            println!("cargo::rustc-link-search=native={folder}");
            println!("cargo::rustc-link-lib=static=exports");
        }
        Err(why) => println!("cargo::error={why}"),
    }
}

/// What the library is made of, and the library where it is built: not all of `crates`, since each
/// crate has a folder `out` too, where `rt` keeps much, and which is newer after each build. Cargo
/// would build anew each time for a path that is not there.
fn parts() -> Vec<PathBuf> {
    let mut parts = vec![PathBuf::from("../crates/exports/out/libexports.a")];
    for krate in fs::read_dir("../crates").into_iter().flatten().flatten() {
        parts.extend(["src", "specs", "proofs"].map(|part| krate.path().join(part)));
    }
    parts.retain(|path| path.exists());
    parts
}

/// The folder of the library, or one line that says what to do.
fn library() -> Result<String, String> {
    let script = "../tests/library";
    let made = Command::new(script).output();
    let made = made.map_err(|error| format!("{script}: {error}"))?;
    let said = |bytes: &[u8]| String::from_utf8_lossy(bytes).trim().to_owned();
    if made.status.success() {
        return Ok(said(&made.stdout));
    }
    let said = said(&made.stderr);
    Err(said.lines().last().unwrap_or(script).to_owned())
}
