//! Random calls: most are accepted, and each row of the table declines some.

mod again;
mod drags;
mod edits;
mod reads;

use super::held::Held;
use super::{Call, NONE};
use crate::format::NAME;
use crate::format::book::Book;
use crate::format::sheet::{Sheet, Target};
use crate::random::Random;
use crate::readings::some::{frame as some_frame, vary, vary_textures};
use crate::sheets::{books, good, names};
use drags::{close, dragging};
use edits::edit;
use reads::{reading, seldom};

/// What a stretch of a list does.
#[derive(Clone, Copy, Debug, PartialEq)]
pub enum Mode {
    Mixed,
    Edits,
    Undos,
    Redos,
    Drags,
    Ticks,
    Reads,
    Spoiled,
}

/// A mode and how long it lasts.
pub fn mode(random: &mut Random, held: &Held) -> (Mode, usize) {
    let reach = held.player.reach.min(128) as usize;
    let redo = held.player.redo.min(128) as usize;
    let few = 1 + random.below(12);
    if held.player.drag.open && random.once_in(2) {
        return (Mode::Drags, few);
    }
    match random.below(21) {
        0..4 => (Mode::Mixed, few),
        4..7 => (Mode::Edits, random.pick(&[few, 2 * few, 20, 150])),
        7..9 => (Mode::Undos, random.pick(&[few, reach + 2, reach / 2 + 1])),
        9..11 if redo == 0 && !random.once_in(4) => (Mode::Undos, few),
        9..11 => (Mode::Redos, random.pick(&[few, redo + 2, redo / 2 + 1])),
        11 => (Mode::Ticks, few),
        12..15 => (Mode::Reads, few),
        15..18 => (Mode::Drags, random.pick(&[few, 2 * few, 40])),
        _ => (Mode::Spoiled, 2 + random.below(4)),
    }
}

/// A sheet, most often with tracks to edit, and a book that it moves. Its next
/// names have any length.
pub fn pair(random: &mut Random) -> (Sheet, Book) {
    let (mut sheet, book) = any_pair(random);
    for animation in &mut sheet.animations {
        if animation.next_present == 1 {
            let length = random.below(NAME + 1);
            animation.next = names::of_length(random, length);
        }
    }
    (sheet, book)
}

fn any_pair(random: &mut Random) -> (Sheet, Book) {
    if random.once_in(256) {
        let book = books::book(random, books::FULL);
        let sheet = good::sheet(random, good::FULL, &book);
        return (sheet, book);
    }
    let panes = 1 + random.below(5);
    let materials = random.below(4);
    if random.once_in(24) {
        let book = books::book(random, books::Size { panes, materials });
        let size = good::size(random);
        let sheet = good::sheet(random, size, &book);
        return (sheet, book);
    }
    let targets = 1 + random.below(10);
    let keys = targets + random.below(4 * targets);
    let (mut sheet, book) = sized_pair(random, books::Size { panes, materials }, targets, keys);
    vary_textures(random, &mut sheet);
    (sheet, book)
}

fn sized_pair(
    random: &mut Random,
    size: books::Size,
    targets: usize,
    keys: usize,
) -> (Sheet, Book) {
    let book = books::book(random, size);
    let size = good::Size {
        animations: 1 + random.below(3),
        contents: 1 + random.below(6),
        targets,
        keys,
        textures: random.below(5),
    };
    let mut sheet = good::sheet(random, size, &book);
    for animation in &mut sheet.animations {
        animation.frame_count = random.pick(&[0, 1, 4, 10, 60, 60, 65_535]);
    }
    vary(random, &mut sheet);
    (sheet, book)
}

pub fn call(random: &mut Random, held: &Held, mode: Mode) -> Call {
    // Most modes need something selected.
    let idle = held.player.selection == NONE && !random.once_in(8);
    let open = held.player.drag.open;
    match mode {
        Mode::Mixed => mixed(random, held),
        Mode::Edits | Mode::Ticks | Mode::Reads if idle => select(random, held),
        // An open drag shuts these out.
        Mode::Edits | Mode::Undos | Mode::Redos if open && !random.once_in(6) => close(random),
        Mode::Edits => edit(random, held),
        Mode::Undos | Mode::Redos if random.once_in(24) => mixed(random, held),
        Mode::Undos => Call::Undo,
        Mode::Redos => Call::Redo,
        Mode::Drags => dragging(random, held),
        Mode::Ticks if held.player.playing || random.once_in(2) => tick(random),
        Mode::Ticks => Call::Play(held.player.selection),
        Mode::Reads => reading(random, held),
        Mode::Spoiled => spoiled(random, held),
    }
}

fn mixed(random: &mut Random, held: &Held) -> Call {
    match random.below(20) {
        0..2 => select(random, held),
        2..5 => edit(random, held),
        5..7 => Call::Undo,
        7..9 => Call::Redo,
        9..12 => tick(random),
        12..16 => dragging(random, held),
        _ => reading(random, held),
    }
}

/// A save, whose buffer now and then has another length.
pub fn save(random: &mut Random) -> Call {
    let short = seldom(random, 3);
    Call::Save { short }
}

/// In a spoiled state undo, redo and the drags look closest; a damaged book is for
/// readings alone.
fn spoiled(random: &mut Random, held: &Held) -> Call {
    if held.book.good.is_none() && !random.once_in(4) {
        return reading(random, held);
    }
    match random.below(6) {
        0 => Call::Undo,
        1 => Call::Redo,
        2 => dragging(random, held),
        _ => mixed(random, held),
    }
}

fn select(random: &mut Random, held: &Held) -> Call {
    if random.once_in(2) {
        return Call::Play(animation(random, held));
    }
    let frame = if random.once_in(24) {
        not_finite(random)
    } else {
        some_frame(random, &held.sheet)
    };
    Call::Pose(animation(random, held), frame)
}

fn animation(random: &mut Random, held: &Held) -> u16 {
    let count = held.sheet.animations.len() as u16;
    let any = random.word() as u16;
    if random.once_in(10) {
        return random.pick(&[count, count + 1, NONE, NONE, any]);
    }
    // Most often one that has keys to edit.
    let with_keys: Vec<u16> = held
        .sheet
        .targets
        .iter()
        .filter(|target| target.key_count > 0)
        .map(|target| animation_of(&held.sheet, target))
        .collect();
    if with_keys.is_empty() || random.once_in(6) {
        return random.below(usize::from(count)) as u16;
    }
    random.pick(&with_keys)
}

pub fn animation_of(sheet: &Sheet, target: &Target) -> u16 {
    u16::from(sheet.contents[usize::from(target.content)].animation)
}

fn not_finite(random: &mut Random) -> f32 {
    random.pick(&[f32::NAN, f32::INFINITY, f32::NEG_INFINITY])
}

fn tick(random: &mut Random) -> Call {
    let number = random.number();
    let dt = match random.below(16) {
        0 => not_finite(random),
        1 | 2 => number,
        _ => random.pick(&[0.0, -0.0, 1.0 / 60.0, 0.5, 0.5, 1.0, -0.5, 100.0]),
    };
    let number = random.number();
    let fps = match random.below(16) {
        0 => not_finite(random),
        1 | 2 => number,
        3 => f32::MAX,
        _ => random.pick(&[0.0, 1.0, 8.0, 8.0, 30.0, 60.0]),
    };
    Call::Tick { dt, fps }
}
