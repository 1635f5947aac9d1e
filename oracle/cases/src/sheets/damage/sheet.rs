//! Each rule of the sheet's layout, broken alone in a sheet that is good.

use super::Changed;
use crate::curves::{CONSTANT, HERMITE, STEP};
use crate::format::name;
use crate::format::sheet::{Animation, Content, Sheet, Target};

const LAYOUT: u8 = 1;

/// A good sheet with two rows or more of everything, and a curve of each kind.
pub fn base() -> Sheet {
    let animation = |frame_count, next_present, next| Animation {
        frame_count,
        looping: 1,
        next_present,
        next: name(next),
    };
    let content = |animation, kind, text| Content {
        animation,
        kind,
        zero: 0,
        name: name(text),
    };
    let target = |content, code: &[u8; 4], curve, first_key| Target {
        content,
        code: *code,
        curve,
        first_key,
        key_count: 3,
        ..Target::default()
    };
    Sheet {
        zero: 0,
        animations: vec![animation(60, 1, "close"), animation(30, 0, "")],
        contents: vec![
            content(0, 0, "pane"),
            content(0, 3, "pane"),
            content(1, 1, "material"),
        ],
        targets: vec![
            target(0, b"FLPA", HERMITE, 0),
            target(1, b"FLVI", STEP, 3),
            target(2, b"FLAC", CONSTANT, 6),
        ],
        textures: vec![name("red"), name("blue")],
        frames: vec![0.0, 4.0, 8.0, 0.0, 2.0, 2.0, 0.0, 0.0, 0.0],
        values: vec![1.0, -2.5, 3.0, 1.0, 0.0, 65_535.0, 0.5, 1.5, 2.5],
        slopes: vec![0.5, 0.0, -1.0, 0.0, 0.0, 0.0, 0.0, 0.0, 0.0],
    }
}

/// What is changed in a sheet, and whether it breaks the layout.
type Edit = (&'static str, fn(&mut Sheet), bool);

const EDITS: [Edit; 32] = [
    ("nothing", |_| (), false),
    (
        "no animation",
        |s| {
            *s = Sheet {
                animations: vec![],
                ..Sheet::default()
            }
        },
        true,
    ),
    ("one animation alone", |s| *s = alone(), false),
    (
        "8 animations",
        |s| s.animations.resize(8, Animation::default()),
        false,
    ),
    (
        "9 animations",
        |s| s.animations.resize(9, Animation::default()),
        true,
    ),
    ("64 contents", |s| fill_contents(s, 64), false),
    ("65 contents", |s| fill_contents(s, 65), true),
    ("256 targets", |s| fill_targets(s, 256), false),
    ("257 targets", |s| fill_targets(s, 257), true),
    ("2048 keys", |s| fill_keys(s, 2048), false),
    ("2049 keys", |s| fill_keys(s, 2049), true),
    ("64 textures", |s| s.textures.resize(64, [0; 24]), false),
    ("65 textures", |s| s.textures.resize(65, [0; 24]), true),
    ("the sixth size is 1", |s| s.zero = 1, true),
    ("the sixth size is 256", |s| s.zero = 256, true),
    ("looping is 2", |s| s.animations[1].looping = 2, true),
    (
        "next present is 2",
        |s| s.animations[0].next_present = 2,
        true,
    ),
    (
        "next absent, its name's first byte not",
        |s| s.animations[1].next[0] = 1,
        true,
    ),
    (
        "next absent, its name's last byte not",
        |s| s.animations[1].next[23] = 1,
        true,
    ),
    (
        "a content's animation is A",
        |s| s.contents[2].animation = 2,
        true,
    ),
    (
        "content animations fall",
        |s| s.contents[0].animation = 1,
        true,
    ),
    ("a content's type is 5", |s| s.contents[1].kind = 5, true),
    ("a content's zero is 1", |s| s.contents[1].zero = 1, true),
    (
        "a content's zero is 256",
        |s| s.contents[1].zero = 256,
        true,
    ),
    (
        "a target's content is C",
        |s| s.targets[2].content = 3,
        true,
    ),
    ("target contents fall", |s| s.targets[0].content = 2, true),
    ("a target's curve is 3", |s| s.targets[1].curve = 3, true),
    ("a target's zero is 1", |s| s.targets[1].zero = 1, true),
    (
        "a first key is one more",
        |s| s.targets[1].first_key += 1,
        true,
    ),
    (
        "a first key is one less",
        |s| s.targets[2].first_key -= 1,
        true,
    ),
    (
        "a count is one more than there are",
        |s| s.targets[2].key_count += 1,
        true,
    ),
    (
        "a count is one less than there are",
        |s| s.targets[2].key_count -= 1,
        true,
    ),
];

/// Every edit of the base, and the base with a size or the length changed.
pub fn all() -> Vec<Changed> {
    let mut all: Vec<Changed> = EDITS
        .iter()
        .map(|&(what, edit, breaks)| {
            let mut sheet = base();
            edit(&mut sheet);
            changed(what, sheet.write(), breaks)
        })
        .collect();
    let good = base().write();
    for size in 0..5 {
        all.push(changed(
            &format!("size {size} is one more"),
            counted(&good, size, 1),
            true,
        ));
        all.push(changed(
            &format!("size {size} is one less"),
            counted(&good, size, -1),
            true,
        ));
    }
    for length in 0..good.len() {
        all.push(changed(
            &format!("cut to {length}"),
            good[..length].to_vec(),
            true,
        ));
    }
    all.push(changed("a byte more", [&good[..], &[0]].concat(), true));
    all
}

fn changed(what: &str, bytes: Vec<u8>, breaks: bool) -> Changed {
    Changed {
        what: what.to_string(),
        bytes,
        refusal: if breaks { LAYOUT } else { 0 },
    }
}

/// The bytes with a size one more or less, and the same rows.
fn counted(bytes: &[u8], size: usize, by: i8) -> Vec<u8> {
    let mut bytes = bytes.to_vec();
    bytes[2 * size] = bytes[2 * size].wrapping_add_signed(by);
    bytes
}

fn alone() -> Sheet {
    Sheet {
        animations: vec![Animation::default()],
        ..Sheet::default()
    }
}

fn fill_contents(sheet: &mut Sheet, count: usize) {
    let last = sheet.contents[2];
    sheet.contents.resize(count, last);
}

fn fill_targets(sheet: &mut Sheet, count: usize) {
    let empty = Target {
        first_key: 9,
        key_count: 0,
        ..sheet.targets[2]
    };
    sheet.targets.resize(count, empty);
}

fn fill_keys(sheet: &mut Sheet, count: usize) {
    sheet.targets[2].key_count = (count - 6) as u16;
    sheet.frames.resize(count, 0.0);
    sheet.values.resize(count, 0.0);
    sheet.slopes.resize(count, 0.0);
}
