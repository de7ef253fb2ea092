// Finds the proved archive, in CAUCHY_LIB_DIR or the repository's target/staticlib, and notes the compiler's version.
use std::{env, path::PathBuf, process::Command};

#[path = "build/text.rs"]
mod text;

fn main() {
    let here = PathBuf::from(env::var("CARGO_MANIFEST_DIR").unwrap());
    let dir = env::var("CAUCHY_LIB_DIR").map_or_else(|_| here.join("../target/staticlib"), PathBuf::from);
    let archive = dir.join("libcauchy.a");
    println!("cargo::rerun-if-env-changed=CAUCHY_LIB_DIR");
    println!("cargo::rerun-if-changed={}", archive.display());
    if !archive.is_file() {
        println!("cargo::error={} is not there: run `host/archive` in the repository first", archive.display());
        return;
    }
    println!("cargo::rustc-link-search=native={}", dir.display());
    println!("cargo::rustc-link-lib=static=cauchy");
    println!("cargo::rustc-env=RUSTC_VERSION={}", rustc_version());
    if let Err(told) = text::write(&here) {
        println!("cargo::error={told}");
    }
}

fn rustc_version() -> String {
    let told = env::var("RUSTC").ok().and_then(|rustc| Command::new(rustc).arg("--version").output().ok());
    told.and_then(|o| String::from_utf8(o.stdout).ok()).map_or("rustc unknown".into(), |v| v.trim().to_string())
}
