//! What is wrong with a command line or a file: on standard error, each line behind `error: `, and nothing on standard output.

use std::path::PathBuf;

use crate::program::{Ran, file, folder, run_command, sample, words};

/// The longest sheet has 31,724 bytes.
const TOO_LONG: usize = 31_725;

/// A folder with the samples beside files that can't be used.
fn files(name: &str) -> PathBuf {
    let folder = folder(name);
    for name in ["title.sheet", "title.book"] {
        std::fs::copy(sample(name), folder.join(name)).unwrap();
    }
    std::fs::create_dir(folder.join("folder")).unwrap();
    file(&folder, "empty", "");
    file(&folder, "long", vec![1; TOO_LONG]);
    file(&folder, "longest", vec![1; TOO_LONG - 1]);
    folder
}

fn run_in(folder: &PathBuf, list: &[&str]) -> Ran {
    run_command(words(list).current_dir(folder))
}

/// One error and no output; its object has the same words.
fn is_error(folder: &PathBuf, list: &[&str], expected: &str) {
    let ran = run_in(folder, list);
    assert_eq!(ran.err, format!("error: {expected}\n"), "{list:?}");
    assert_eq!((ran.status, ran.text()), (2, ""), "{list:?}");

    let ran = run_in(folder, &[list, &["--json"]].concat());
    assert_eq!((ran.status, ran.err.as_str()), (2, ""), "{list:?}");
    let [object] = &ran.objects()[..] else {
        panic!("{list:?} has not one object: {ran:?}");
    };
    let words = object.text("error");
    assert!(expected.contains(words), "{list:?}: {words}");
}

#[test]
fn of_files() {
    let folder = files("errors_of_files");
    let wrong = [
        ("none", "there is no such file"),
        ("none/none", "there is no such file"),
        ("folder", "is a folder"),
        ("empty", "is empty"),
        (
            "long",
            "is too long: a sheet has 31,724 bytes at most, a book 9,604",
        ),
    ];
    for (name, words) in wrong {
        let expected = format!("{name}: {words}");
        let (sheet, book) = ("title.sheet", "title.book");
        is_error(&folder, &["check", name], &expected);
        is_error(&folder, &["info", name], &expected);
        is_error(&folder, &["info", sheet, name], &expected);
        for command in ["frames", "replay"] {
            let animation: &[&str] = if command == "frames" { &["0"] } else { &[] };
            let list = [&[command, name, book], animation].concat();
            is_error(&folder, &list, &expected);
            let list = [&[command, sheet, name], animation].concat();
            is_error(&folder, &list, &expected);
        }
    }
    // One byte less is read whole, and is no sheet.
    let read = run_in(&folder, &["check", "longest"]);
    assert_eq!((read.status, read.err.as_str()), (1, ""), "{read:?}");
}

/// An error of one file doesn't keep the others from being told.
#[test]
fn among_several_files() {
    let folder = files("errors_among_files");
    let ran = run_in(&folder, &["check", "none", "title.sheet", "empty"]);
    assert_eq!(ran.lines(), ["title.sheet: ok, a sheet"]);
    let errors = [
        "error: none: there is no such file",
        "error: empty: is empty",
    ];
    assert_eq!(ran.err.lines().collect::<Vec<_>>(), errors);
    let ran = run_in(
        &folder,
        &["check", "none", "title.sheet", "empty", "--json"],
    );
    let files = ran.objects();
    let names = files.iter().map(|object| object.text("file"));
    assert_eq!(names.collect::<Vec<_>>(), ["none", "title.sheet", "empty"]);
}

#[test]
fn of_words() {
    let folder = files("errors_of_words");
    let missing = "is missing; menu_cli help says what a command takes";
    let many = "is one word too many; menu_cli help says what a command takes";
    let (sheet, book) = ("title.sheet", "title.book");
    let is = |list: &[&str], expected: &str| is_error(&folder, list, expected);
    is(&[], &format!("the command: {missing}"));
    is(&["fly"], "fly: is no command; menu_cli help lists them");
    is(
        &["fly", sheet, book],
        "fly: is no command; menu_cli help lists them",
    );
    is(&["check"], &format!("FILE: {missing}"));
    is(&["info"], &format!("SHEET: {missing}"));
    is(&["info", sheet, book, "more"], &format!("more: {many}"));
    for command in ["frames", "replay"] {
        is(&[command], &format!("SHEET: {missing}"));
        is(&[command, sheet], &format!("BOOK: {missing}"));
    }
    is(&["replay", sheet, book, "0"], &format!("0: {many}"));
    is(&["frames", sheet, book], &format!("ANIMATION: {missing}"));
    is(
        &["frames", sheet, book, "0", "1"],
        &format!("TO: {missing}"),
    );
    is(
        &["frames", sheet, book, "0", "1", "2", "3"],
        &format!("3: {many}"),
    );
    is(&["frames", sheet, book, "0", "2", "1"], "FROM: is above TO");
}

#[test]
fn of_numbers() {
    let folder = files("errors_of_numbers");
    let frames = ["frames", "title.sheet", "title.book"];
    let is = |list: &[&str], expected: &str| {
        is_error(&folder, &[&frames, list].concat(), expected);
    };
    let whole = "is no whole number below 16,777,216";
    for word in ["x", "-1", "1.5", "16777216", "99999999999999999999"] {
        is(&[word], &format!("ANIMATION: {word}: {whole}"));
        is(&["0", word, "1"], &format!("FROM: {word}: {whole}"));
        is(&["0", "1", word], &format!("TO: {word}: {whole}"));
    }
    is(
        &["3"],
        "ANIMATION: 3: no such animation: the sheet has 3, counted from 0",
    );
}

/// An empty word and an unknown option are found wherever they stand, before anything is done.
#[test]
fn of_empty_words_and_options() {
    let folder = files("errors_of_options");
    let lists: [&[&str]; 3] = [
        &["check", "title.sheet"],
        &["frames", "title.sheet", "title.book", "0"],
        &["help"],
    ];
    for list in lists {
        for at in 0..=list.len() {
            let mut with = list.to_vec();
            with.insert(at, "");
            is_error(&folder, &with, "\"\": is an empty word");
            with[at] = "--jsn";
            let expected = "--jsn: is no option; menu_cli help lists them";
            is_error(&folder, &with, expected);
        }
    }
}
