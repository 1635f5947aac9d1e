//! The C header: a C program that includes it, linked with the library and run. There is no skipping: without a C
//! compiler the test fails.

use std::fs;
use std::path::Path;
use std::process::{Command, Output};

use dovebolt::example;

fn text(output: &Output) -> String {
    let both = [&output.stdout[..], &output.stderr[..]].concat();
    String::from_utf8_lossy(&both).into_owned()
}

fn run(command: &mut Command) {
    let output = command
        .output()
        .unwrap_or_else(|e| panic!("{command:?} can't be run: {e}"));
    assert!(
        output.status.success(),
        "{command:?}: {}\n{}",
        output.status,
        text(&output)
    );
}

#[test]
fn every_call_from_c() {
    let package = Path::new(env!("CARGO_MANIFEST_DIR"));
    let folder = Path::new(env!("CARGO_TARGET_TMPDIR"));
    let program = folder.join("calls");
    run(Command::new("cc")
        .args([
            "-std=c11",
            "-Wall",
            "-Wextra",
            "-Wpedantic",
            "-Werror",
            "-I",
        ])
        .arg(package.join("../include"))
        .arg(package.join("tests/c/calls.c"))
        .arg(env!("DOVEBOLT_ARCHIVE"))
        .arg("-lm")
        .arg("-o")
        .arg(&program));
    let (sheet, book) = (folder.join("example.sheet"), folder.join("example.book"));
    fs::write(&sheet, example::sheet()).unwrap();
    fs::write(&book, example::book()).unwrap();
    run(Command::new(&program).args([&sheet, &book]));
}
