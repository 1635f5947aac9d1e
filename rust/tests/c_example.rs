//! The C example, compiled and run: what it prints is held to what the package answers, and its errors name the file and
//! the refusal. There is no skipping: without a C compiler the tests fail.

use std::fs;
use std::path::{Path, PathBuf};
use std::process::{Command, Output};

use dovebolt::{Player, Tick};

fn repository() -> PathBuf {
    Path::new(env!("CARGO_MANIFEST_DIR")).join("..")
}

fn sample(name: &str) -> PathBuf {
    repository().join("samples").join(name)
}

fn text(bytes: &[u8]) -> &str {
    std::str::from_utf8(bytes).unwrap()
}

/// A folder of the test's own with the compiled example, `play`.
fn compiled(test: &str) -> PathBuf {
    let folder = Path::new(env!("CARGO_TARGET_TMPDIR"))
        .join("c_example")
        .join(test);
    fs::create_dir_all(&folder).unwrap();
    let output = Command::new("cc")
        .args(["-std=c99", "-Wall", "-Wextra", "-Werror", "-I"])
        .arg(repository().join("include"))
        .arg(repository().join("examples/c/play.c"))
        .arg(env!("DOVEBOLT_ARCHIVE"))
        .arg("-lm")
        .arg("-o")
        .arg(folder.join("play"))
        .output()
        .expect("cc can't be run");
    assert!(output.status.success(), "{}", text(&output.stderr));
    folder
}

fn run(folder: &Path, sheet: &Path, book: &Path, animation: &str) -> Output {
    Command::new(folder.join("play"))
        .args([sheet, book])
        .arg(animation)
        .output()
        .unwrap()
}

/// A frame, or a shown pane with its alpha.
#[derive(Debug, PartialEq)]
enum Line {
    Frame(f32),
    Pane(usize, f32),
}

fn line(text: &str) -> Line {
    match text.split_whitespace().collect::<Vec<_>>()[..] {
        ["frame", frame] => Line::Frame(frame.parse().unwrap()),
        ["pane", pane, "alpha", alpha] => Line::Pane(pane.parse().unwrap(), alpha.parse().unwrap()),
        _ => panic!("{text:?} is neither a frame nor a pane"),
    }
}

/// What the package answers for the same ticks.
fn shown(animation: u16) -> Vec<Line> {
    let [sheet, book] = ["title.sheet", "title.book"].map(|name| fs::read(sample(name)).unwrap());
    let (mut player, keys) = Player::load(&sheet).unwrap();
    player.play(&sheet, Some(animation)).unwrap();
    let mut lines = vec![];
    let mut tick = Tick::Running;
    for n in 0..=100 {
        lines.push(Line::Frame(player.frame()));
        let rows = player.cascade(&sheet, &book, &keys).unwrap();
        let panes = rows.iter().enumerate().filter(|(_, row)| row.visible);
        lines.extend(panes.map(|(pane, row)| Line::Pane(pane, row.alpha)));
        if tick != Tick::Running || n == 100 {
            break;
        }
        tick = player.tick(&sheet, 1.0 / 60.0, 60.0).unwrap();
    }
    lines
}

/// Animation 0 ends with a next name, 1 loops, 2 ends.
#[test]
fn plays_as_the_package_does() {
    let folder = compiled("plays");
    for animation in 0..3 {
        let (sheet, book) = (sample("title.sheet"), sample("title.book"));
        let output = run(&folder, &sheet, &book, &animation.to_string());
        assert_eq!(output.status.code(), Some(0), "{}", text(&output.stderr));
        let lines: Vec<&str> = text(&output.stdout).lines().collect();
        let (frames, end) = lines.split_at(lines.len() - 3);
        let printed: Vec<Line> = frames.iter().map(|text| line(text)).collect();
        assert_eq!(printed, shown(animation));
        assert!(end[0].starts_with("edited key 0 of track "), "{}", end[0]);
        assert_eq!(end[1], "saved with the edit: other bytes");
        assert_eq!(end[2], "saved after its undo: the same bytes");
    }
}

/// The status, and the one line on standard error; nothing is on standard output.
fn declined(folder: &Path, sheet: &Path, book: &Path, animation: &str, status: i32, line: &str) {
    let output = run(folder, sheet, book, animation);
    assert_eq!(output.status.code(), Some(status));
    assert_eq!(text(&output.stdout), "");
    assert_eq!(text(&output.stderr), format!("{line}\n"));
}

#[test]
fn errors_name_file_and_refusal() {
    let folder = compiled("errors");
    let (sheet, book) = (sample("title.sheet"), sample("title.book"));
    let damaged = |name: &str, change: fn(&mut Vec<u8>)| {
        let mut bytes = fs::read(sample(name)).unwrap();
        change(&mut bytes);
        let path = folder.join(name);
        fs::write(&path, bytes).unwrap();
        path
    };
    // Bytes 10 and 11 of a sheet are zero.
    let bad_sheet = damaged("title.sheet", |bytes| bytes[10] = 1);
    let bad_book = damaged("title.book", |bytes| bytes.truncate(bytes.len() - 1));
    let line = |path: &Path, why: &str| format!("{}: {why}", path.display());

    let why = line(&bad_sheet, "refusal 1: the sheet breaks its layout");
    declined(&folder, &bad_sheet, &book, "0", 1, &why);
    let why = line(&bad_book, "refusal 2: the book breaks its layout");
    declined(&folder, &sheet, &bad_book, "0", 1, &why);
    let why = line(&sheet, "refusal 6: no such animation, or nothing is active");
    declined(&folder, &sheet, &book, "3", 1, &why);

    let missing = folder.join("missing.sheet");
    let why = line(&missing, "can't be opened");
    declined(&folder, &missing, &book, "0", 2, &why);
    let why = line(&folder, "can't be read");
    declined(&folder, &sheet, &folder, "0", 2, &why);
    for animation in ["", "one", "65536", "-1"] {
        let usage = "usage: play SHEET BOOK ANIMATION";
        declined(&folder, &sheet, &book, animation, 2, usage);
    }
}

/// What stands in a file's table of refusals between two marks, a row each.
fn table<'a>(file: &'a str, starts: &str, open: &str, close: &str) -> Vec<&'a str> {
    let (_, rows) = file.split_once(starts).unwrap();
    let (rows, _) = rows.split_once("};").unwrap();
    rows.lines()
        .filter_map(|row| Some(row.split_once(open)?.1.split_once(close)?.0))
        .collect()
}

/// The example says a refusal in the header's words.
#[test]
fn words_are_the_headers() {
    let [header, example] = ["include/menu.h", "examples/c/play.c"]
        .map(|name| fs::read_to_string(repository().join(name)).unwrap());
    let words = table(&header, "enum menu_refusal {", "/* ", " */");
    assert_eq!(words.len(), 15);
    let own = table(&example, "words[] = {", "\"", "\",");
    assert_eq!(own[0], "none");
    assert_eq!(own[1..], words);
}
