//! Good sheets: their rows and keys follow every rule.

use crate::curves::{self, CONSTANT, HERMITE, STEP};
use crate::format::Name;
use crate::format::book::Book;
use crate::format::sheet::{self, Animation, Content, Sheet, Target};
use crate::random::Random;

/// How many rows a sheet is to have; keys are shared out among the targets.
#[derive(Clone, Copy, Debug)]
pub struct Size {
    pub animations: usize,
    pub contents: usize,
    pub targets: usize,
    pub keys: usize,
    pub textures: usize,
}

pub const FULL: Size = Size {
    animations: sheet::MOST_ANIMATIONS,
    contents: sheet::MOST_CONTENTS,
    targets: sheet::MOST_TARGETS,
    keys: sheet::MOST_KEYS,
    textures: sheet::MOST_TEXTURES,
};

/// Codes that address something, those that anim_info.rs lists and that address
/// nothing, and some that it does not list.
pub const PANE_CODES: [&[u8; 4]; 3] = [b"FLPA", b"FLVI", b"FLVC"];
pub const MATERIAL_CODES: [&[u8; 4]; 5] = [b"FLTS", b"FLTP", b"FLIM", b"FLAC", b"FLMC"];
pub const OTHER_CODES: [&[u8; 4]; 16] = [
    b"FLCC",
    b"FLEU",
    b"FLCT",
    b"FLDS",
    b"FLMT",
    b"FLPS",
    b"FLWN",
    b"FSMA",
    b"FLFS",
    b"FTBR",
    b"FVGA",
    b"APLF",
    b"FLPB",
    b"flpa",
    b"\0\0\0\0",
    b"\xff\xff\xff\xff",
];

/// Some size, most often a small one; a table may be empty.
pub fn size(random: &mut Random) -> Size {
    if random.once_in(64) {
        return FULL;
    }
    let contents = random.below(7);
    let targets = if contents == 0 { 0 } else { random.below(13) };
    Size {
        animations: 1 + random.below(3),
        contents,
        targets,
        keys: if targets == 0 {
            0
        } else {
            random.below(3 * targets + 1)
        },
        textures: random.below(5),
    }
}

/// A sheet of that size, whose contents have names of the book or other ones.
pub fn sheet(random: &mut Random, size: Size, book: &Book) -> Sheet {
    let labels: Vec<Name> = book.panes.iter().map(|pane| pane.label).collect();
    let names: Vec<Name> = book
        .materials
        .iter()
        .map(|material| material.name)
        .collect();
    let mut sheet = Sheet {
        animations: (0..size.animations).map(|_| animation(random)).collect(),
        textures: (0..size.textures)
            .map(|_| any_name(random, &names))
            .collect(),
        ..Sheet::default()
    };
    for number in rising(random, size.contents, size.animations) {
        let kind = random.pick(&[0, 0, 1, 1, 2, 3, 4]);
        let fitting = if kind == 1 { &names } else { &labels };
        let any = random.pick(&[&labels, &names]);
        let from = random.pick(&[fitting, fitting, fitting, any]);
        sheet.contents.push(Content {
            animation: number as u8,
            kind,
            name: any_name(random, from),
            ..Content::default()
        });
    }
    let counts = shares(random, size.keys, size.targets);
    for (number, count) in rising(random, size.targets, size.contents)
        .into_iter()
        .zip(counts)
    {
        push_target(random, &mut sheet, number as u16, count);
    }
    sheet
}

fn animation(random: &mut Random) -> Animation {
    let next_present = random.below(2) as u8;
    let mut next = [0; 24];
    if next_present == 1 {
        next[..4].copy_from_slice(b"next");
    }
    let some = random.below(1000) as u16;
    Animation {
        frame_count: random.pick(&[0, 1, 60, 65_535, some]),
        looping: random.below(2) as u8,
        next_present,
        next,
    }
}

/// One of the names, now and then an empty one or one with a byte changed.
fn any_name(random: &mut Random, names: &[Name]) -> Name {
    if names.is_empty() || random.once_in(16) {
        return [0; 24];
    }
    let mut name = random.pick(names);
    if random.once_in(8) {
        name[23] = b'?';
    }
    name
}

/// A target and its keys.
fn push_target(random: &mut Random, sheet: &mut Sheet, content: u16, count: usize) {
    let kind = sheet.contents[usize::from(content)].kind;
    let code = code(random, kind);
    let curve = random.pick(&[CONSTANT, STEP, HERMITE]);
    let mut keys = curves::some::keys_of(random, curve, count);
    if code == *b"FLTP" && curve == STEP {
        for value in &mut keys.values {
            *value = random.below(sheet.textures.len() + 2) as f32;
        }
    }
    sheet.targets.push(Target {
        content,
        layer: random.pick(&[0, 1, 2, 3, 255]),
        raw: raw(random, &code),
        code,
        curve,
        first_key: sheet.frames.len() as u16,
        key_count: count as u16,
        ..Target::default()
    });
    sheet.frames.extend(keys.frames);
    sheet.values.extend(keys.values);
    sheet.slopes.extend(keys.slopes);
}

/// Most often a code that its content's type can use.
fn code(random: &mut Random, kind: u8) -> [u8; 4] {
    let pane = *random.pick(&PANE_CODES);
    let material = *random.pick(&MATERIAL_CODES);
    let other = *random.pick(&OTHER_CODES);
    match (random.below(8), kind) {
        (0, _) => other,
        (1, _) | (_, 1) => material,
        _ => pane,
    }
}

/// Most often a raw number that targets.rs lists for the code. Few of these, so
/// that targets repeat.
fn raw(random: &mut Random, code: &[u8; 4]) -> u8 {
    let listed = match code {
        b"FLPA" => 10,
        b"FLVC" => 17,
        b"FLTS" => 5,
        b"FLIM" => 3,
        b"FLMC" => 28,
        _ => 1,
    };
    match random.below(4) {
        0 => random.below(listed.min(3)) as u8,
        1 => random.below(256) as u8,
        _ => random.below(listed + 1) as u8,
    }
}

/// `count` numbers below `end` that never fall.
fn rising(random: &mut Random, count: usize, end: usize) -> Vec<usize> {
    let mut numbers: Vec<usize> = (0..count).map(|_| random.below(end)).collect();
    numbers.sort();
    numbers
}

/// `total` in `count` parts.
fn shares(random: &mut Random, total: usize, count: usize) -> Vec<usize> {
    let mut shares = vec![0; count];
    for _ in 0..total {
        shares[random.below(count)] += 1;
    }
    shares
}
