//! Links the proved code: the archive libmenu_c.a that `tools/archives` writes.

use std::env;
use std::path::{Path, PathBuf};

/// Names another folder that holds the archive.
const FOLDER: &str = "DOVEBOLT_STATICLIB";

fn main() {
    let folder = match env::var_os(FOLDER) {
        Some(folder) => PathBuf::from(folder),
        None => Path::new(env!("CARGO_MANIFEST_DIR")).join("../target/staticlib"),
    };
    let archive = folder.join("libmenu_c.a");
    assert!(
        archive.is_file(),
        "the proved library is missing: {} is no file. Run `tools/archives` in the repository's root, \
         or name the folder that holds libmenu_c.a in {FOLDER}.",
        archive.display()
    );
    println!("cargo::rustc-link-search=native={}", folder.display());
    println!("cargo::rustc-link-lib=static=menu_c");
    // for the test that links it from C
    println!("cargo::rustc-env=DOVEBOLT_ARCHIVE={}", archive.display());
    println!("cargo::rerun-if-changed={}", archive.display());
    println!("cargo::rerun-if-env-changed={FOLDER}");
}
