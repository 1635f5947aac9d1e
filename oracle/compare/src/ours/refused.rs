//! What a declined call hands back by value beside its number: the player as it
//! was, zeros, and `unchanged` not set. The package `dovebolt` drops these, so the
//! exports are called as they are.

use cases::bits::bits_of;
use cases::calls::held::Held;
use cases::calls::{Call, Request};
use dovebolt::{Keys, raw};

use super::single;

/// Makes a declined call again through the exports. The keys are looked at by
/// the caller.
pub fn keeps_all(call: &Call, held: &Held, player: raw::Player, keys: &mut Keys) {
    let kept = match call {
        Call::Play(_) | Call::Pose(..) | Call::Tick { .. } => view_call(call, held, player),
        Call::Edit { .. } | Call::Drag { .. } | Call::DropDrag => {
            edit_call(call, held, player, keys)
        }
        _ if call.edits() => key_call(call, held, player, keys),
        _ => zeros(call, held, player, keys),
    };
    assert!(
        kept,
        "{call:?} is declined, and yet hands back something else"
    );
}

fn is_kept(refusal: u8, after: &raw::Player, before: &raw::Player) -> bool {
    let canonical = |p: &raw::Player| raw::Player {
        frame: f32::from_bits(bits_of(p.frame)),
        ..*p
    };
    refusal != 0 && bytes_of(&canonical(after)) == bytes_of(&canonical(before))
}

/// The numbers of a player, NaNs as they are.
fn bytes_of(p: &raw::Player) -> Vec<u64> {
    let j = &p.journal;
    let head = [
        u64::from(p.selection),
        u64::from(p.playing),
        u64::from(p.preview),
        u64::from(p.frame.to_bits()),
        p.reach,
        p.redo,
        p.accepted,
        p.undone,
        p.redone,
        p.standing,
    ];
    let shorts = j.track.iter().chain(&j.key).map(|&n| u64::from(n));
    let numbers = [
        &j.before_frame,
        &j.before_value,
        &j.before_slope,
        &j.after_frame,
        &j.after_value,
        &j.after_slope,
    ];
    let numbers = numbers
        .into_iter()
        .flatten()
        .map(|&x| u64::from(bits_of(x)));
    let drag = [
        u64::from(p.drag.open),
        u64::from(p.drag.moved),
        u64::from(p.drag.track),
        u64::from(p.drag.key),
        u64::from(bits_of(p.drag.start_frame)),
        u64::from(bits_of(p.drag.start_value)),
        u64::from(bits_of(p.drag.start_slope)),
    ];
    let journal = shorts.chain(numbers);
    head.into_iter().chain(journal).chain(drag).collect()
}

fn view_call(call: &Call, held: &Held, player: raw::Player) -> bool {
    let s = &held.sheet_bytes;
    let (at, len) = (s.as_ptr(), s.len());
    // SAFETY: the pointer has the length of its slice.
    let played = unsafe {
        match *call {
            Call::Play(animation) => raw::menu_play(player, at, len, animation),
            Call::Pose(animation, frame) => raw::menu_pose(player, at, len, animation, frame),
            Call::Tick { dt, fps } => {
                let ticked = raw::menu_tick(player, at, len, dt, fps);
                return ticked.answer == 0 && is_kept(ticked.refusal, &ticked.player, &player);
            }
            _ => return false,
        }
    };
    is_kept(played.refusal, &played.player, &player)
}

fn edit_call(call: &Call, held: &Held, player: raw::Player, keys: &mut Keys) -> bool {
    let s = &held.sheet_bytes;
    let (at, len) = (s.as_ptr(), s.len());
    let [f, v, m] = [&mut keys.frames, &mut keys.values, &mut keys.slopes]
        .map(|array| (array.as_mut_ptr(), array.len()));
    // SAFETY: each pointer has the length of its slice, and the three arrays are
    // lent alone.
    let edited = unsafe {
        match *call {
            Call::Edit {
                track,
                key,
                request: Request::Key { frame, value },
            } => raw::menu_key_edit(
                player, at, len, f.0, f.1, v.0, v.1, m.0, m.1, track, key, frame, value,
            ),
            Call::Edit {
                track,
                key,
                request: Request::Slope(slope),
            } => raw::menu_slope_edit(
                player, at, len, f.0, f.1, v.0, v.1, m.0, m.1, track, key, slope,
            ),
            Call::Drag { frame, value } => {
                raw::menu_drag(player, at, len, f.0, f.1, v.0, v.1, m.0, m.1, frame, value)
            }
            Call::DropDrag => raw::menu_drop_drag(player, at, len, f.0, f.1, v.0, v.1, m.0, m.1),
            _ => return false,
        }
    };
    !edited.unchanged && is_kept(edited.refusal, &edited.player, &player)
}

/// The other calls that take keys and hand back the player.
fn key_call(call: &Call, held: &Held, player: raw::Player, keys: &mut Keys) -> bool {
    let s = &held.sheet_bytes;
    let (at, len) = (s.as_ptr(), s.len());
    let [f, v, m] = [&mut keys.frames, &mut keys.values, &mut keys.slopes]
        .map(|array| (array.as_mut_ptr(), array.len()));
    // SAFETY: each pointer has the length of its slice, and the three arrays are
    // lent alone.
    let played = unsafe {
        match *call {
            Call::Undo => raw::menu_undo(player, at, len, f.0, f.1, v.0, v.1, m.0, m.1),
            Call::Redo => raw::menu_redo(player, at, len, f.0, f.1, v.0, v.1, m.0, m.1),
            Call::OpenDrag { track, key } => {
                raw::menu_open_drag(player, at, len, f.0, f.1, v.0, v.1, m.0, m.1, track, key)
            }
            Call::AbandonDrag => {
                raw::menu_abandon_drag(player, at, len, f.0, f.1, v.0, v.1, m.0, m.1)
            }
            _ => return false,
        }
    };
    is_kept(played.refusal, &played.player, &player)
}

/// Readings whose answer is a struct: each number is +0.
fn zeros(call: &Call, held: &Held, player: raw::Player, keys: &Keys) -> bool {
    let [s, b] = [&held.sheet_bytes, &held.book.bytes].map(|bytes| (bytes.as_ptr(), bytes.len()));
    let [f, v, m] =
        [&keys.frames, &keys.values, &keys.slopes].map(|array| (array.as_ptr(), array.len()));
    let all_zero = |numbers: &[f32]| numbers.iter().all(|x| x.to_bits() == 0);
    // SAFETY: each pointer has the length of its slice.
    unsafe {
        match *call {
            Call::ReadPane { .. } | Call::ReadMaterial { .. } => {
                let read = single::read(call, held, player, keys);
                read.kind == 0 && all_zero(&[read.number])
            }
            Call::ResolvePane(pane) => {
                let to = raw::menu_resolve_pane(
                    player, s.0, s.1, b.0, b.1, f.0, f.1, v.0, v.1, m.0, m.1, pane,
                );
                let (t, r) = (to.translation, to.rotation);
                let numbers = [to.alpha, t.x, t.y, t.z, r.x, r.y, r.z];
                let more = [to.scale.x, to.scale.y, to.size.x, to.size.y];
                !to.visible && all_zero(&numbers) && all_zero(&more)
            }
            Call::ResolveSrt { material, layer } => {
                let to = raw::menu_resolve_srt(
                    player, s.0, s.1, b.0, b.1, f.0, f.1, v.0, v.1, m.0, m.1, material, layer,
                );
                let (t, scale) = (to.translate, to.scale);
                all_zero(&[t.x, t.y, to.rotate, scale.x, scale.y])
            }
            _ => true, // its outputs are lent
        }
    }
}
