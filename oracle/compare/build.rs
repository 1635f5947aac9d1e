//! Links the proved code: the archive libprobe.a that `tools/archives` writes.

use std::path::Path;

const ARCHIVES: &str = "../../target/staticlib";

fn main() {
    let archive = Path::new(ARCHIVES).join("libprobe.a");
    if !archive.is_file() {
        println!(
            "cargo::error=the proved library is missing: run `tools/archives` in the repository's root"
        );
        return;
    }
    let dir = Path::new(ARCHIVES).canonicalize().unwrap();
    println!("cargo::rustc-link-search=native={}", dir.display());
    println!("cargo::rustc-link-lib=static=probe");
    println!("cargo::rerun-if-changed={ARCHIVES}/libprobe.a");
}
