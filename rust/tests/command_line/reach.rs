//! `reach`: what it says of edits that are made here by hand, of sheets that differ in more than keys, and of what it can't read.

use std::ffi::OsStr;
use std::path::{Path, PathBuf};

use dovebolt::{Keys, Player, SheetBuilder};

use crate::program::{Ran, file, folder, run, sample, sample_bytes};

/// The sample sheet with these edits, saved by this package.
pub fn edited(edit: impl FnOnce(&mut Player, &[u8], &mut Keys)) -> Vec<u8> {
    let sheet = sample_bytes("title.sheet");
    let (mut player, mut keys) = Player::load(&sheet).unwrap();
    edit(&mut player, &sheet, &mut keys);
    player.save(&sheet, &keys).unwrap()
}

/// `reach` on two sheets and the sample book.
pub fn reach(old: &Path, new: &Path, options: &[&str]) -> Ran {
    let book = sample("title.book");
    let mut list: Vec<&OsStr> = vec!["reach".as_ref(), old.as_ref(), new.as_ref(), book.as_ref()];
    list.extend(options.iter().map(OsStr::new));
    run(&list)
}

/// `reach` from the sample sheet to these bytes, in a folder of the test's own.
fn from_sample(test: &str, new: &[u8]) -> (PathBuf, Ran) {
    let new = file(&folder(test), "new.sheet", new);
    let ran = reach(&sample("title.sheet"), &new, &[]);
    (new, ran)
}

/// Lines that begin with these words.
fn beginning<'a>(ran: &'a Ran, words: &str) -> Vec<&'a str> {
    let lines = ran.lines().into_iter();
    lines.filter(|line| line.starts_with(words)).collect()
}

const UNTOUCHED: &str =
    "edited tracks 0 keys 0 touched channels 0 panes 0 materials 0 untouched panes 12 materials 3";

#[test]
fn the_same_sheet_twice() {
    let sheet = sample("title.sheet");
    let ran = reach(&sheet, &sheet, &[]);
    assert_eq!((ran.status, ran.err.as_str()), (0, ""));
    let lines = ran.lines();
    assert_eq!((lines.len(), lines[15]), (16, UNTOUCHED));
    let (panes, materials) = (&lines[..12], &lines[12..15]);
    assert!(panes.iter().all(|line| line.starts_with("pane ")));
    assert!(materials.iter().all(|line| line.starts_with("material ")));
    assert!(lines[..15].iter().all(|line| line.ends_with(" untouched")));
}

#[test]
fn one_number() {
    let new = edited(|player, sheet, keys| {
        player.play(sheet, Some(0)).unwrap();
        player.key_edit(sheet, keys, 0, 1, 12.0, 80.0).unwrap();
    });
    let (_, ran) = from_sample("reach_number", &new);
    assert_eq!((ran.status, ran.err.as_str()), (0, ""));
    let lines = ran.lines();
    assert_eq!(
        lines[0],
        "animation 0 track 0 pane Logo translate_y frames 1..14 largest change 16 0x41800000 at frame 12: 96 0x42C00000 to 80 0x42A00000"
    );
    let touched: Vec<_> = lines.iter().filter(|l| l.contains(" touched: ")).collect();
    assert_eq!(touched, [&"pane Logo touched: own channel"]);
    assert_eq!(
        lines.last(),
        Some(
            &"edited tracks 1 keys 1 touched channels 1 panes 1 materials 0 untouched panes 11 materials 3"
        )
    );
}

/// The menu's alpha influences its children, but the cursor hands on what is above it: its trail follows the menu.
#[test]
fn a_parent_and_its_children() {
    let new = edited(|player, sheet, keys| {
        player.play(sheet, Some(2)).unwrap();
        player.key_edit(sheet, keys, 24, 1, 8.0, 51.0).unwrap();
    });
    let (_, ran) = from_sample("reach_children", &new);
    let follows = "ButtonStart ButtonStartText ButtonOptions ButtonOptionsText Cursor CursorTrail";
    let lines =
        |form: &dyn Fn(&str) -> String| -> Vec<String> { follows.split(' ').map(form).collect() };
    assert_eq!(
        beginning(&ran, "animation 2 pane "),
        lines(&|pane| format!("animation 2 pane {pane} follows frames 1..10"))
    );
    for line in lines(&|pane| format!("pane {pane} touched: follows")) {
        assert_eq!(beginning(&ran, &line), [&line]);
    }
    assert_eq!(
        beginning(&ran, "pane Menu "),
        ["pane Menu touched: own channel"]
    );
    assert_eq!(beginning(&ran, "pane Sky "), ["pane Sky untouched"]);
}

/// A Step key between two frames moves, and no whole frame shows it; the channel is touched all the same.
#[test]
fn no_whole_frame() {
    let new = edited(|player, sheet, keys| {
        player.play(sheet, Some(1)).unwrap();
        player.key_edit(sheet, keys, 16, 1, 31.5, 0.0).unwrap();
    });
    let (_, ran) = from_sample("reach_between", &new);
    assert_eq!(
        ran.lines()[0],
        "animation 1 track 16 pane PressAnyKey visible frames none: reads the same at every whole frame"
    );
    let pane = beginning(&ran, "pane PressAnyKey ");
    assert_eq!(pane, ["pane PressAnyKey touched: own channel"]);
}

/// Track 26 decides what 25 addresses; 27 names no pane of the book; 28 is user data.
#[test]
fn what_changes_nothing() {
    let new = edited(|player, sheet, keys| {
        player.play(sheet, Some(2)).unwrap();
        for track in [25, 27, 28] {
            player.key_edit(sheet, keys, track, 0, 0.0, 3.0).unwrap();
        }
    });
    let (_, ran) = from_sample("reach_nothing", &new);
    assert_eq!(
        ran.lines()[..3],
        [
            "animation 2 track 25 pane ButtonStart scale_x: changes nothing: track 26 decides the channel",
            "animation 2 track 27 pane ButtonCredits visible: changes nothing: the book has nothing of that name",
            "animation 2 track 28 user Menu FLEU layer 0 raw 0: changes nothing: addresses nothing",
        ]
    );
    let untouched = UNTOUCHED.replace("tracks 0 keys 0", "tracks 3 keys 3");
    assert_eq!(ran.lines().last(), Some(&untouched.as_str()));
}

/// One byte changed at a time, before the keys, so that the sheet is accepted all the same.
#[test]
fn more_than_keys() {
    let sheet = sample_bytes("title.sheet");
    let (contents, targets) = (12 + 28 * 3, 12 + 28 * 3 + 28 * 14);
    let textures = targets + 14 * 29;
    let cases = [
        (12, "animation 0, frame count"),
        (12 + 28 + 2, "animation 1, looping"),
        (12 + 4 + 2, "animation 0, next name"),
        (contents + 28 * 3 + 1, "content 3, type"),
        (contents + 28 * 3 + 4 + 5, "content 3, name"),
        (targets + 14 * 5 + 2, "target 5, layer"),
        (targets + 14 * 5 + 3, "target 5, raw"),
        (targets + 14 * 5 + 7, "target 5, code"),
        (textures + 24 + 1, "texture 1, name"),
    ];
    for (n, (at, place)) in cases.iter().enumerate() {
        let mut other = sheet.clone();
        other[*at] ^= 1;
        let (path, ran) = from_sample(&format!("reach_more_{n}"), &other);
        let old = sample("title.sheet");
        let line = format!(
            "{}: differs from {} in more than keys: {place}, byte {at}\n",
            path.display(),
            old.display()
        );
        assert_eq!((ran.status, ran.text()), (1, line.as_str()));
        let object = &reach(&old, &path, &["--json"]).objects()[0];
        let row = if object.has("row") {
            format!(" {}", object.count("row"))
        } else {
            String::new()
        };
        let told = format!("{}{row}, {}", object.text("part"), object.text("field"));
        assert_eq!((told.as_str(), object.count("offset")), (*place, *at));
        assert_eq!(object.text("answer"), "differs");
    }
}

#[test]
fn other_sizes() {
    let mut small = SheetBuilder::new();
    small.animation(8);
    let (_, ran) = from_sample("reach_sizes", &small.build().unwrap());
    let told = ran.text();
    assert_eq!(ran.status, 1);
    assert!(
        told.ends_with(" in more than keys: sizes, animations, byte 0\n"),
        "{told}"
    );
}

/// What is declined is told as `check` tells it, the first alone.
#[test]
fn what_is_declined() {
    let folder = folder("reach_declined");
    let mut damaged = sample_bytes("title.sheet");
    damaged[14] = 7;
    let damaged = file(&folder, "damaged.sheet", damaged);
    let checked = run(&["check".as_ref(), damaged.as_os_str()]);
    let sheet = sample("title.sheet");
    for (old, new) in [(&damaged, &sheet), (&sheet, &damaged), (&damaged, &damaged)] {
        let ran = reach(old, new, &[]);
        assert_eq!((ran.status, ran.text()), (1, checked.text()));
    }
}
