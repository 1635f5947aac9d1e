//! Random menus that are short enough to be read at every frame, and random edits.

use super::Place;
use crate::calls::{Call, Request};
use crate::curves::{CONSTANT, HERMITE, STEP};
use crate::format::book::Book;
use crate::format::load::Arrays;
use crate::format::sheet::{Sheet, Target};
use crate::random::Random;
use crate::readings::addressed::channel;
use crate::readings::some::{vary, vary_textures};
use crate::sheets::{books, good};

/// How long most animations are at most, in frames.
const SHORT: usize = 12;

/// A full menu is met once in so many; reading it at every frame takes a second.
const FULL: usize = 32_768;

pub fn menu(random: &mut Random) -> (Sheet, Book) {
    let (panes, rows) = sizes(random);
    let book = books::book(random, panes);
    let mut sheet = good::sheet(random, rows, &book);
    vary(random, &mut sheet);
    vary_textures(random, &mut sheet);
    repeat(random, &mut sheet);
    for animation in &mut sheet.animations {
        let longer = random.once_in(256);
        animation.frame_count = random.below(if longer { 100 } else { SHORT + 1 }) as u16;
    }
    let length = sheet.animations.iter().map(|a| a.frame_count).max();
    let length = usize::from(length.unwrap_or_default()).max(4);
    for target in &sheet.targets.clone() {
        settle(random, &mut sheet, target, length);
    }
    (sheet, book)
}

fn sizes(random: &mut Random) -> (books::Size, good::Size) {
    if random.once_in(FULL) {
        return (books::FULL, good::FULL);
    }
    let wide = random.once_in(256);
    let most = |small: usize, large: usize| if wide { large } else { small };
    let targets = 1 + random.below(most(8, 48));
    let book = books::Size {
        panes: 1 + random.below(most(5, 20)),
        materials: random.below(most(3, 8)),
    };
    let sheet = good::Size {
        animations: 1 + random.below(most(2, 4)),
        contents: 1 + random.below(most(4, 16)),
        targets,
        keys: targets + random.below(3 * targets),
        textures: random.below(5),
    };
    (book, sheet)
}

/// Makes some targets address what the one before addresses, where both are of one
/// content, and turns some to a pane's visible or alpha, which its children follow.
fn repeat(random: &mut Random, sheet: &mut Sheet) {
    for i in 0..sheet.targets.len() {
        let earlier = sheet.targets[i.saturating_sub(1)];
        let target = &mut sheet.targets[i];
        let is_pane = [0, 3].contains(&sheet.contents[usize::from(target.content)].kind);
        match random.below(8) {
            0 if earlier.content == target.content => {
                (target.code, target.layer, target.raw) = (earlier.code, earlier.layer, earlier.raw)
            }
            1 if is_pane => target.code = *b"FLVI",
            2 if is_pane => (target.code, target.raw) = (*b"FLVC", 16),
            _ => {}
        }
    }
}

/// Brings most keys into the animation, and most numbers near what a reading shows.
fn settle(random: &mut Random, sheet: &mut Sheet, target: &Target, length: usize) {
    let rows = target.keys();
    if target.curve != CONSTANT && !random.once_in(8) {
        let halves = 2 * length + 4;
        let mut frames: Vec<usize> = rows.clone().map(|_| random.below(halves)).collect();
        frames.sort();
        for (place, half) in rows.clone().zip(frames) {
            sheet.frames[place] = half as f32 / 2.0 - 1.0;
        }
    }
    for place in rows {
        if random.once_in(8) {
            continue;
        }
        if target.curve == HERMITE {
            sheet.slopes[place] = random.tame(8);
        }
        sheet.values[place] = value(random, target);
    }
}

fn value(random: &mut Random, target: &Target) -> f32 {
    if target.curve == STEP {
        return random.below(6) as f32;
    }
    match &target.code {
        b"FLVI" | b"FLTP" => random.below(24) as f32 / 8.0 - 0.5,
        b"FLVC" | b"FLMC" => random.below(600) as f32 / 2.0 - 20.0,
        _ => random.tame(64),
    }
}

/// What a step of a list of edits starts from.
pub struct Now<'a> {
    pub sheet: &'a Sheet,
    pub book: &'a Book,
    pub keys: &'a Arrays,
    /// The key of the open drag.
    pub dragged: Option<Place>,
    /// How many edits can be undone and redone.
    pub reach: u64,
    pub redo: u64,
}

/// The next step: an edit, a step of a drag, an undo or a redo. Nothing where no track
/// that may be edited has a key.
pub fn step(random: &mut Random, now: &Now) -> Option<Call> {
    if let Some(place) = now.dragged {
        return Some(match random.below(4) {
            0 => Call::DropDrag,
            1 if random.once_in(2) => Call::AbandonDrag,
            _ => {
                let (frame, value) = request(random, now, place);
                Call::Drag { frame, value }
            }
        });
    }
    match random.below(16) {
        0..2 if now.reach > 0 => return Some(Call::Undo),
        2..8 if now.redo > 0 => return Some(Call::Redo),
        _ => {}
    }
    let place = some_key(random, now)?;
    let (track, key) = (place.track as u16, place.key as u16);
    if random.once_in(6) {
        return Some(Call::OpenDrag { track, key });
    }
    let hermite = now.sheet.targets[place.track].curve == HERMITE;
    let request = if hermite && random.once_in(3) {
        Request::Slope(number(random, 8))
    } else {
        let (frame, value) = request(random, now, place);
        Request::Key { frame, value }
    };
    Some(Call::Edit {
        track,
        key,
        request,
    })
}

/// Most often of a track that addresses something.
fn some_key(random: &mut Random, now: &Now) -> Option<Place> {
    let any = random.once_in(4);
    let tracks = now.sheet.targets.iter().enumerate();
    let own: Vec<usize> = tracks
        .filter(|(_, target)| {
            target.key_count > 0 && (any || channel(now.sheet, now.book, target).is_some())
        })
        .map(|(track, _)| track)
        .collect();
    if own.is_empty() {
        return None;
    }
    let track = random.pick(&own);
    let key = random.below(usize::from(now.sheet.targets[track].key_count));
    Some(Place { track, key })
}

/// A frame and a value for a key: most often near its own frame.
fn request(random: &mut Random, now: &Now, place: Place) -> (f32, f32) {
    let target = &now.sheet.targets[place.track];
    let at = target.keys().start + place.key;
    let (frame, own) = (now.keys[0][at], now.keys[1][at]);
    let moved = frame + random.pick(&[0.0, 0.0, 0.01, -0.01, 0.5, -0.5, 1.0, -1.0, 2.25]);
    let frame = match random.below(8) {
        0 => random.number(),
        1 => random.below(16) as f32,
        _ => moved,
    };
    let value = match random.below(8) {
        0 => own,
        1 => own + 0.25,
        2 => random.number(),
        _ => value(random, target),
    };
    let finite = |x: f32| if x.is_finite() { x } else { 0.0 };
    (finite(frame), finite(value))
}

fn number(random: &mut Random, n: usize) -> f32 {
    if random.once_in(8) {
        return random.number();
    }
    random.tame(n)
}

/// Frames that are asked beside an animation's whole ones: near its keys, and any.
pub fn fractions(random: &mut Random, sheet: &Sheet) -> Vec<f32> {
    let mut frames = vec![random.number()];
    for _ in 0..3 {
        frames.push(crate::readings::some::frame(random, sheet));
    }
    frames
}
