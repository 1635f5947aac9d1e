//! What the program `channel_names` is run on, and what it must write: for each
//! raw number of FLVC the channel of the name that targets.rs has for it, then
//! every channel's name by its number.

use crate::channel_names;
use crate::format::book::{Book, NO_PARENT, Pane, VISIBLE};
use crate::format::name;
use crate::format::sheet::{Animation, Content, Sheet, Target};
use crate::stored::File;
use std::fmt::Write;

/// A sheet with one target, which has one key. The key keeps the rules of every
/// curve; its value is a fifth of 255.
pub fn sheet(raw: u8, kind: u8, curve: u8) -> Sheet {
    Sheet {
        animations: vec![Animation {
            frame_count: 1,
            ..Animation::default()
        }],
        contents: vec![Content {
            kind,
            name: name("Pane"),
            ..Content::default()
        }],
        targets: vec![Target {
            raw,
            code: *b"FLVC",
            curve,
            key_count: 1,
            ..Target::default()
        }],
        frames: vec![0.0],
        values: vec![51.0],
        slopes: vec![0.0],
        ..Sheet::default()
    }
}

/// A book with the pane that the sheet moves.
pub fn book() -> Book {
    Book {
        panes: vec![Pane {
            label: name("Pane"),
            parent: NO_PARENT,
            flags: VISIBLE,
            alpha: 255,
            horizontal: 0,
            vertical: 0,
            zero: 0,
            floats: [0.0; 10],
        }],
        materials: Vec::new(),
    }
}

/// What the program must write.
pub fn text() -> String {
    let mut text = String::new();
    for raw in 0..=255 {
        let _ = writeln!(text, "FLVC {raw} {}", channel_names::corner_or_alpha(raw));
    }
    let rows = [
        ("pane", channel_names::of_panes()),
        ("material", channel_names::of_materials()),
    ];
    for (row, names) in rows {
        for (number, name) in names.iter().enumerate() {
            let _ = writeln!(text, "{row} {number} {name}");
        }
    }
    text
}

/// The program sets the raw number, the type of the content and the curve.
pub fn files() -> Vec<File> {
    let files = [
        ("data/one.sheet", sheet(0, 0, 0).write()),
        ("data/one.book", book().write()),
        ("stdout", text().into_bytes()),
    ];
    let files = files.into_iter();
    files
        .map(|(name, bytes)| (format!("channel_names/{name}"), bytes))
        .collect()
}
