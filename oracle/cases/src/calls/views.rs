//! Every view of a few with every play, pose, tick, reading and save of a few,
//! whether a list of calls reaches the view or not: nothing selected and yet playing or
//! shown, preview off, frames below zero and past the end.

use super::ends::FRAME_COUNTS;
use super::spoil::{self, Spoil};
use super::{Call, NONE, View};
use crate::bits::bits_of;
use crate::format::NAME;
use crate::format::book::Book;
use crate::format::sheet::{Animation, Sheet};
use crate::random::Random;
use crate::sheets::{damage, names};

const FRAMES: [f32; 17] = [
    0.0,
    -0.0,
    1.0e-45,
    0.5,
    1.0,
    29.5,
    59.5,
    60.0,
    60.5,
    65_534.5,
    65_535.0,
    1.0e9,
    f32::MAX,
    -0.5,
    -60.0,
    -1.0e9,
    f32::MIN,
];

/// Frames that a pose asks for.
const POSED: [f32; 8] = [
    0.0,
    -0.0,
    2.5,
    -3.0,
    f32::MAX,
    f32::NAN,
    f32::INFINITY,
    f32::NEG_INFINITY,
];

const SECONDS: [f32; 17] = [
    0.0,
    -0.0,
    1.0 / 60.0,
    0.5,
    1.0,
    60.0,
    1.0e9,
    f32::MAX,
    -1.0 / 60.0,
    -0.5,
    -1.0,
    -60.0,
    -1.0e9,
    f32::MIN,
    f32::NAN,
    f32::INFINITY,
    f32::NEG_INFINITY,
];

const RATES: [f32; 11] = [
    0.0,
    -0.0,
    1.0,
    8.0,
    60.0,
    f32::MAX,
    -8.0,
    -60.0,
    f32::NAN,
    f32::INFINITY,
    f32::NEG_INFINITY,
];

/// Texture slots, three of which a material has.
const SLOTS: [u16; 7] = [0, 1, 2, 3, 4, 255, 65_535];

/// The base, and sheets with an animation of each frame count, looping or not:
/// each with a next name of its own, and all without.
pub fn pairs() -> Vec<(Sheet, Book)> {
    let (base, book) = damage::base_pair();
    let rows = FRAME_COUNTS.iter().flat_map(|&frame_count| {
        [0, 1].map(|looping| Animation {
            frame_count,
            looping,
            ..Animation::default()
        })
    });
    let without = Sheet {
        animations: rows.collect(),
        ..base.clone()
    };
    let mut named = without.clone();
    for (row, animation) in named.animations.iter_mut().enumerate() {
        animation.next_present = 1;
        animation.next = names::of_length(&mut Random::new(0), NAME - 3 * row);
    }
    let sheets = [named, without, base];
    sheets.map(|sheet| (sheet, book.clone())).into()
}

/// The calls before the views are set: none, and a drag that stays open.
pub fn starts() -> [Vec<Call>; 2] {
    let drag = vec![
        Call::Play(0),
        Call::OpenDrag { track: 0, key: 1 },
        Call::Drag {
            frame: 5.5,
            value: 2.0,
        },
    ];
    [Vec::new(), drag]
}

/// Nothing selected or each animation, both flags, each frame.
pub fn views(sheet: &Sheet) -> Vec<View> {
    let animations = 0..sheet.animations.len() as u16;
    let mut views = Vec::new();
    for selection in animations.chain([NONE]) {
        for flags in 0..4 {
            views.extend(FRAMES.map(|frame| View {
                selection,
                playing: flags & 1 == 1,
                preview: flags & 2 == 2,
                frame,
            }));
        }
    }
    views
}

/// What sets a player to a view.
pub fn spoils(view: &View) -> [Spoil; 4] {
    [
        (spoil::SELECTION, u64::from(view.selection)),
        (spoil::PLAYING, u64::from(view.playing)),
        (spoil::PREVIEW, u64::from(view.preview)),
        (spoil::FRAME, u64::from(bits_of(view.frame))),
    ]
    .map(|(field, value)| Spoil::Field {
        field,
        row: 0,
        value,
    })
}

pub fn calls(sheet: &Sheet) -> Vec<Call> {
    let count = sheet.animations.len() as u16;
    let numbers = [0, 1, count - 1, count, count + 1, 255, 256, 65_534, NONE];
    let mut calls = Vec::new();
    for number in numbers {
        calls.push(Call::Play(number));
        calls.push(Call::NextName(number));
        calls.extend(POSED.map(|frame| Call::Pose(number, frame)));
    }
    for dt in SECONDS {
        calls.extend(RATES.map(|fps| Call::Tick { dt, fps }));
    }
    calls.extend(readings());
    calls.extend([0, 1].map(|short| Call::Save { short }));
    calls
}

fn readings() -> impl Iterator<Item = Call> {
    let names = [0, 1, 2, 65_535]
        .into_iter()
        .flat_map(|material| SLOTS.map(|slot| Call::TextureName { material, slot }));
    let others = [
        Call::ReadPane {
            pane: 0,
            channel: 0,
        },
        Call::ReadMaterial {
            material: 0,
            channel: 21,
        },
        Call::ReadAll { short: 0 },
        Call::ResolvePane(0),
        Call::ResolveSrt {
            material: 0,
            layer: 0,
        },
        Call::Cascade { short: 0 },
    ];
    names.chain(others)
}
