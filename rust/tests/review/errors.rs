//! What can't be compared: one line says what and why, the exit status is not 0, and no page is written.

use std::fs;
use std::path::Path;

use dovebolt::{PaneChannel, SheetBuilder, example};

use crate::{folder, run};

/// What goes to standard error, behind the program's name.
fn told(folder: &Path, words: &[&str]) -> String {
    let output = run(folder, words);
    assert!(!output.status.success(), "review {words:?} succeeded");
    assert_eq!(output.stdout, b"");
    assert!(!folder.join("out.html").exists(), "review {words:?} wrote");
    let text = String::from_utf8(output.stderr).unwrap();
    assert_eq!(text.lines().count(), 1, "{text}");
    text.strip_prefix("review: ")
        .expect(&text)
        .trim_end()
        .to_string()
}

/// A folder with the example menu, and with its files damaged.
fn menu(name: &str) -> std::path::PathBuf {
    let folder = folder(name);
    let (sheet, book) = (example::sheet(), example::book());
    let mut nan = sheet.clone();
    let slope = nan.len() - 4;
    nan[slope..].copy_from_slice(&f32::NAN.to_le_bytes());
    for (file, bytes) in [
        ("small.sheet", &sheet[..]),
        ("small.book", &book),
        ("short.sheet", &sheet[1..]),
        ("short.book", &book[1..]),
        ("nan.sheet", &nan),
    ] {
        fs::write(folder.join(file), bytes).unwrap();
    }
    folder
}

#[test]
fn words_too_few_or_too_many() {
    let folder = menu("words");
    let words = [
        "small.sheet",
        "small.sheet",
        "small.book",
        "out.html",
        "more",
    ];
    for count in [0, 1, 2, 3, 5] {
        let usage = "usage: review OLD NEW BOOK OUT.html";
        assert_eq!(told(&folder, &words[..count]), usage);
    }
}

#[test]
fn files_that_are_not_there() {
    let folder = menu("not_there");
    let missing = "no: No such file or directory";
    for place in 0..3 {
        let mut words = ["small.sheet", "small.sheet", "small.book", "out.html"];
        words[place] = "no";
        assert_eq!(told(&folder, &words), missing);
    }
    let words = ["small.sheet", "small.sheet", "small.book", "no/out.html"];
    assert_eq!(
        told(&folder, &words),
        "no/out.html: No such file or directory"
    );
}

#[test]
fn files_that_are_declined() {
    let folder = menu("declined");
    let good = ["small.sheet", "small.sheet", "small.book", "out.html"];
    for (place, file, why) in [
        (0, "short.sheet", "refusal 1: the sheet breaks its layout"),
        (1, "short.sheet", "refusal 1: the sheet breaks its layout"),
        (0, "nan.sheet", "refusal 4: the keys break the key rules"),
        (1, "nan.sheet", "refusal 4: the keys break the key rules"),
        (2, "short.book", "refusal 2: the book breaks its layout"),
        (2, "small.sheet", "refusal 2: the book breaks its layout"),
    ] {
        let mut words = good;
        words[place] = file;
        assert_eq!(told(&folder, &words), format!("{file}: {why}"));
    }
}

/// A sheet with a part that may be another.
fn sheet(frames: u16, name: &str, channel: PaneChannel, texture: &str, keys: usize) -> Vec<u8> {
    let mut sheet = SheetBuilder::new();
    let values = vec![1.0; keys];
    sheet
        .animation(frames)
        .pane(name)
        .constant(channel, &values);
    if !texture.is_empty() {
        sheet.texture(texture);
    }
    sheet.build().unwrap()
}

#[test]
fn sheets_that_differ_in_more_than_keys() {
    use PaneChannel::{Alpha, Visible};
    let folder = menu("more_than_keys");
    fs::write(folder.join("old"), sheet(8, "Logo", Alpha, "day", 1)).unwrap();
    for (new, differ) in [
        (sheet(9, "Logo", Alpha, "day", 1), "animation 0 is another"),
        (sheet(8, "Root", Alpha, "day", 1), "content 0 is another"),
        (sheet(8, "Logo", Visible, "day", 1), "track 0 is another"),
        (
            sheet(8, "Logo", Alpha, "dusk", 1),
            "texture name 0 is another",
        ),
        (
            sheet(8, "Logo", Alpha, "", 1),
            "they have 1 and 0 texture names",
        ),
        (sheet(8, "Logo", Alpha, "day", 2), "they have 1 and 2 keys"),
        (example::sheet(), "they have 1 and 2 animations"),
    ] {
        fs::write(folder.join("new"), new).unwrap();
        let told = told(&folder, &["old", "new", "small.book", "out.html"]);
        assert_eq!(
            told,
            format!("old and new differ in more than keys: {differ}")
        );
    }
}
