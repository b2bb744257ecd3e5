//! Links the static library that `tools/build exports` writes at the project's root, or the one in
//! the folder that `JOLLANQE_LIBRARY_DIR` names.

use std::env;
use std::path::{Path, PathBuf};

const LIBRARY: &str = "libexports.a";
const DIRECTORY: &str = "JOLLANQE_LIBRARY_DIR";

fn directory() -> PathBuf {
    let root = env::var_os("CARGO_MANIFEST_DIR").unwrap_or_default();
    let usual = || Path::new(&root).join("../../target/staticlib");
    env::var_os(DIRECTORY).map_or_else(usual, PathBuf::from)
}

fn main() {
    let directory = directory();
    let library = directory.join(LIBRARY);
    println!("cargo::rerun-if-env-changed={DIRECTORY}");
    println!("cargo::rerun-if-changed={}", library.display());
    if !library.exists() {
        let place = library.display();
        println!("cargo::error={place} is missing: run `tools/build exports`, or set {DIRECTORY}");
        return;
    }
    println!("cargo::rustc-link-search=native={}", directory.display());
    println!("cargo::rustc-link-lib=static=exports");
}
