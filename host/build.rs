//! Finds the proved archive: in CAUCHY_LIB_DIR, or in the repository's target/staticlib.
use std::env;
use std::path::PathBuf;

fn main() {
    let here = PathBuf::from(env!("CARGO_MANIFEST_DIR"));
    let dir = match env::var_os("CAUCHY_LIB_DIR") {
        Some(dir) => PathBuf::from(dir),
        None => here.join("../target/staticlib"),
    };
    let archive = dir.join("libcauchy.a");
    println!("cargo::rerun-if-env-changed=CAUCHY_LIB_DIR");
    println!("cargo::rerun-if-changed={}", archive.display());
    if !archive.is_file() {
        let path = archive.display();
        println!(
            "cargo::error={path} is not there: run host/archive in the repository, or set CAUCHY_LIB_DIR"
        );
        return;
    }
    println!("cargo::rustc-link-search=native={}", dir.display());
    println!("cargo::rustc-link-lib=static=cauchy");
}
