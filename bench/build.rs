//! Tells rustc where the library is. The archive is written by tools/library.sh.

use std::path::PathBuf;

fn main() {
    let here = PathBuf::from(std::env::var("CARGO_MANIFEST_DIR").unwrap());
    let folder = here.join("../target/staticlib");
    let archive = folder.join("libcapi.a");
    println!("cargo:rerun-if-changed={}", archive.display());
    if !archive.exists() {
        eprintln!("{} is missing: run tools/library.sh first", archive.display());
        std::process::exit(1);
    }
    println!("cargo:rustc-link-search=native={}", folder.display());
}
