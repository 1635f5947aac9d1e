//! The example program `play` given what it can't play: it names the file, says why, and its exit status is not 0.

use std::path::{Path, PathBuf};
use std::process::Command;
use std::{env, fs};

use dovebolt::example;

/// A folder with the example menu, and with its files damaged.
fn menu(name: &str) -> PathBuf {
    let folder = Path::new(env!("CARGO_TARGET_TMPDIR")).join(name);
    fs::create_dir_all(&folder).unwrap();
    let (sheet, book) = (example::sheet(), example::book());
    fs::write(folder.join("small.sheet"), &sheet).unwrap();
    fs::write(folder.join("small.book"), &book).unwrap();
    fs::write(folder.join("short.sheet"), &sheet[1..]).unwrap();
    fs::write(folder.join("short.book"), &book[1..]).unwrap();
    fs::write(folder.join("empty"), []).unwrap();
    let mut keys = sheet;
    let slope = keys.len() - 4;
    keys[slope..].copy_from_slice(&f32::NAN.to_le_bytes());
    fs::write(folder.join("nan.sheet"), keys).unwrap();
    folder
}

/// What `play` writes to standard error. An example is built beside this test: target/PROFILE/examples.
fn told(folder: &Path, words: &[&str]) -> String {
    let test = env::current_exe().unwrap();
    let program = test.ancestors().nth(2).unwrap().join("examples/play");
    let output = Command::new(program)
        .current_dir(folder)
        .args(words)
        .output()
        .unwrap();
    assert!(!output.status.success(), "play {words:?} succeeded");
    assert_eq!(output.stdout, b"", "play {words:?}");
    String::from_utf8(output.stderr).unwrap()
}

#[test]
fn files_that_are_not_there() {
    let folder = menu("not_there");
    let missing = "No such file or directory\n";
    assert_eq!(
        told(&folder, &["../no.sheet", "small.book", "0"]),
        format!("play: ../no.sheet: {missing}")
    );
    assert_eq!(
        told(&folder, &["small.sheet", "no.book", "0"]),
        format!("play: no.book: {missing}")
    );
    let folder_as_file = told(&folder, &[".", "small.book", "0"]);
    assert_eq!(folder_as_file, "play: .: Is a directory\n");
}

#[test]
fn files_that_are_damaged() {
    let folder = menu("damaged");
    let layout = "refusal 1: the sheet breaks its layout\n";
    for sheet in ["short.sheet", "empty", "small.book"] {
        assert_eq!(
            told(&folder, &[sheet, "small.book", "0"]),
            format!("play: {sheet}: {layout}")
        );
    }
    assert_eq!(
        told(&folder, &["nan.sheet", "small.book", "0"]),
        "play: nan.sheet: refusal 4: the keys break the key rules\n"
    );
    for book in ["short.book", "empty", "small.sheet"] {
        assert_eq!(
            told(&folder, &["small.sheet", book, "0"]),
            format!("play: {book}: refusal 2: the book breaks its layout\n")
        );
    }
}

#[test]
fn animations_that_there_are_not() {
    let folder = menu("animations");
    for number in ["2", "8", "65534", "65535"] {
        assert_eq!(
            told(&folder, &["small.sheet", "small.book", number]),
            format!(
                "play: small.sheet: animation {number}: refusal 6: no such animation, or nothing is active\n"
            )
        );
    }
    for word in ["-1", "65536", "first", ""] {
        let told = told(&folder, &["small.sheet", "small.book", word]);
        let named = format!("play: animation {word:?}: ");
        assert!(told.starts_with(&named), "{told}");
    }
}

#[test]
fn words_too_few_or_too_many() {
    let folder = menu("words");
    let words = ["small.sheet", "small.book", "0", "1"];
    for count in [0, 1, 2, 4] {
        assert_eq!(
            told(&folder, &words[..count]),
            "play: usage: play SHEET BOOK ANIMATION\n"
        );
    }
}
