//! Random edits: most are accepted, some of them unchanged, and rows 6 to 10 decline
//! the others.

use super::{again, animation_of, not_finite, select};
use crate::calls::held::Held;
use crate::calls::{Call, Request};
use crate::curves::{HERMITE, STEP};
use crate::format::sheet::Target;
use crate::random::Random;

/// A key is asked for what it has once in so many times.
pub const AGAIN: usize = 5;

/// An edit of a key of the active animation, or now and then of none.
pub fn edit(random: &mut Random, held: &Held) -> Call {
    let slope = random.once_in(4);
    let Some(track) = track(random, held, slope) else {
        return if random.once_in(3) {
            wrong_edit(random, held)
        } else {
            select(random, held)
        };
    };
    if random.once_in(12) {
        return wrong_edit(random, held);
    }
    let target = &held.sheet.targets[usize::from(track)];
    let key = random.below(usize::from(target.key_count));
    let request = if slope {
        Request::Slope(edit_slope(random, held, target, key))
    } else {
        let (frame, value) = edit_key(random, held, target, key);
        Request::Key { frame, value }
    };
    Call::Edit {
        track,
        key: key as u16,
        request,
    }
}

/// A track of the active animation that has keys; for a slope most often one of
/// a Hermite curve.
pub fn track(random: &mut Random, held: &Held, slope: bool) -> Option<u16> {
    let any_curve = !slope || random.once_in(8);
    let targets = held.sheet.targets.iter().enumerate();
    let own: Vec<u16> = targets
        .filter(|(_, target)| {
            target.key_count > 0
                && animation_of(&held.sheet, target) == held.player.selection
                && (any_curve || target.curve == HERMITE)
        })
        .map(|(i, _)| i as u16)
        .collect();
    (!own.is_empty()).then(|| random.pick(&own))
}

/// Any track and key, of which there may be none.
pub fn any_key(random: &mut Random, held: &Held) -> (u16, u16) {
    let targets = held.sheet.targets.len();
    let track = random.below(targets + 2) as u16;
    let target = held.sheet.targets.get(usize::from(track));
    let keys = target.map_or(0, |target| usize::from(target.key_count));
    let inside = random.below(keys + 1);
    let key = random.pick(&[inside, inside, inside, keys, keys + 1, 65_535]) as u16;
    (track, key)
}

/// Any track and key, and arguments that may not be finite.
fn wrong_edit(random: &mut Random, held: &Held) -> Call {
    let (track, key) = any_key(random, held);
    let number = not_finite(random);
    let request = match random.below(4) {
        0 => Request::Key {
            frame: number,
            value: argument(random),
        },
        1 => Request::Key {
            frame: argument(random),
            value: number,
        },
        2 => Request::Slope(number),
        _ => Request::Slope(argument(random)),
    };
    Call::Edit {
        track,
        key,
        request,
    }
}

pub fn argument(random: &mut Random) -> f32 {
    if random.once_in(64) {
        return not_finite(random);
    }
    random.number()
}

/// A frame and a value, now and then those that the key has.
pub fn edit_key(random: &mut Random, held: &Held, target: &Target, key: usize) -> (f32, f32) {
    if random.once_in(AGAIN) {
        return again::key(random, held, target, key);
    }
    let frame = edit_frame(random, held, target, key);
    (frame, edit_value(random, target))
}

fn edit_slope(random: &mut Random, held: &Held, target: &Target, key: usize) -> f32 {
    if random.once_in(AGAIN) {
        return again::slope(random, held, target, key);
    }
    argument(random)
}

/// A frame near the key, one of its neighbours, or a bound of the clamp.
fn edit_frame(random: &mut Random, held: &Held, target: &Target, key: usize) -> f32 {
    if random.once_in(5) {
        return argument(random);
    }
    let rows = target.keys();
    let near = random.below(3);
    let at = (rows.start + key + near).saturating_sub(1);
    let frame = held.keys[0][at.clamp(rows.start, rows.end - 1)];
    let frame = frame + random.pick(&[0.0, -0.0, 0.01, -0.01, 0.005, 0.02, -0.02, 0.5, -1.0, 1.0]);
    if frame.is_finite() { frame } else { 0.0 }
}

fn edit_value(random: &mut Random, target: &Target) -> f32 {
    if target.curve != STEP || random.once_in(3) {
        return argument(random);
    }
    let whole = random.below(65_537) as f32;
    let small = random.below(8) as f32 / 2.0;
    random.pick(&[
        whole, small, small, 0.5, -0.5, -0.4, -0.0, 65_535.5, 65_534.5,
    ])
}
