//! What is stored in crates/ is what `store` writes, file by file, and nothing
//! else lies beside it.

use std::collections::BTreeSet;
use std::path::{Path, PathBuf};

fn crates() -> PathBuf {
    Path::new(env!("CARGO_MANIFEST_DIR")).join("../../crates")
}

#[test]
fn stored_files_are_what_store_writes() {
    let files = cases::stored::files();
    for (name, bytes) in &files {
        let stored = std::fs::read(crates().join(name)).unwrap_or_default();
        assert!(stored == *bytes, "{name} is not what `store` writes");
    }
    let made: BTreeSet<PathBuf> = files.iter().map(|(name, _)| crates().join(name)).collect();
    for folder in ["vectors/data", "cli_lists/data", "channel_names/data"] {
        for entry in std::fs::read_dir(crates().join(folder)).unwrap() {
            let path = entry.unwrap().path();
            assert!(made.contains(&path), "`store` doesn't write {path:?}");
        }
    }
}
