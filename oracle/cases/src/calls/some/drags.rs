//! Random drags: a key is opened, dragged for a while with other calls in between,
//! and dropped or abandoned. Row 15 declines what doesn't fit the state.

use super::edits::{AGAIN, any_key, argument, edit, edit_key, track};
use super::{not_finite, reading, select, tick};
use crate::calls::Call;
use crate::calls::held::Held;
use crate::random::Random;

/// The next call of a stretch with drags.
pub fn dragging(random: &mut Random, held: &Held) -> Call {
    if !held.player.drag.open {
        return match random.below(24) {
            0 => drag(random, held),
            1 => close(random),
            _ => open(random, held),
        };
    }
    match random.below(32) {
        0..16 => drag(random, held),
        16..19 => close(random),
        19..21 => shut_out(random, held),
        21..23 => select(random, held),
        23..26 => tick(random),
        _ => reading(random, held),
    }
}

/// Drop or abandon.
pub fn close(random: &mut Random) -> Call {
    random.pick(&[Call::DropDrag, Call::DropDrag, Call::AbandonDrag])
}

/// What an open drag shuts out.
fn shut_out(random: &mut Random, held: &Held) -> Call {
    match random.below(4) {
        0 => Call::Undo,
        1 => Call::Redo,
        2 => open(random, held),
        _ => edit(random, held),
    }
}

/// Of a key of the active animation, or now and then of any or none.
fn open(random: &mut Random, held: &Held) -> Call {
    let own = track(random, held, false);
    let Some(track) = own.filter(|_| !random.once_in(12)) else {
        if own.is_none() && !random.once_in(3) {
            return select(random, held);
        }
        let (track, key) = any_key(random, held);
        return Call::OpenDrag { track, key };
    };
    let count = held.sheet.targets[usize::from(track)].key_count;
    let any = random.below(usize::from(count)) as u16;
    let key = random.pick(&[0, any, any, count - 1]);
    Call::OpenDrag { track, key }
}

/// Anywhere, now and then back to where the key was at opening.
fn drag(random: &mut Random, held: &Held) -> Call {
    let drag = &held.player.drag;
    let target = held.sheet.targets.get(usize::from(drag.track));
    let target = target.filter(|target| drag.key < target.key_count);
    let [start_frame, start_value, _] = drag.start.map(f32::from_bits);
    let (mut frame, mut value) = match target {
        Some(_) if random.once_in(AGAIN) => (start_frame, start_value),
        Some(target) => edit_key(random, held, target, usize::from(drag.key)),
        None => (argument(random), argument(random)),
    };
    match random.below(32) {
        0 => frame = not_finite(random),
        1 => value = not_finite(random),
        _ => {}
    }
    Call::Drag { frame, value }
}
