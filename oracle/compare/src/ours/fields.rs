//! The fields of the proved player: as they are beside the plain one, and set to
//! anything.

use cases::bits::bits_of;
use cases::calls::player::{Drag, Entry, Player};
use cases::calls::spoil::{
    ACCEPTED, DRAG_KEY, DRAG_TRACK, FRAME, KEY, MOVED, OPEN, PLAYING, PREVIEW, REACH, REDO, REDONE,
    SELECTION, STANDING, TRACK, UNDONE,
};
use dovebolt::raw;

/// Whether every field is the plain player's, the journal's rows and the drag with
/// them.
pub fn same(ours: &raw::Player, plain: &Player) -> bool {
    let counts = |p: &raw::Player| [p.reach, p.redo, p.accepted, p.undone, p.redone, p.standing];
    let p = plain;
    (
        ours.selection,
        ours.playing,
        ours.preview,
        bits_of(ours.frame),
    ) == (p.selection, p.playing, p.preview, p.frame)
        && counts(ours) == [p.reach, p.redo, p.accepted, p.undone, p.redone, p.standing]
        && (0..raw::ROWS).all(|row| entry(&ours.journal, row) == p.journal[row])
        && drag(&ours.drag) == p.drag
}

pub fn drag(drag: &raw::Drag) -> Drag {
    let start = [drag.start_frame, drag.start_value, drag.start_slope];
    Drag {
        open: drag.open,
        moved: drag.moved,
        track: drag.track,
        key: drag.key,
        start: start.map(bits_of),
    }
}

fn entry(j: &raw::Journal, row: usize) -> Entry {
    let before = [
        j.before_frame[row],
        j.before_value[row],
        j.before_slope[row],
    ];
    let after = [j.after_frame[row], j.after_value[row], j.after_slope[row]];
    Entry {
        track: j.track[row],
        key: j.key[row],
        before: before.map(bits_of),
        after: after.map(bits_of),
    }
}

/// Sets a field by the number that a spoil gives it.
pub fn set(p: &mut raw::Player, field: u8, row: usize, value: u64) {
    let number = f32::from_bits(value as u32);
    let j = &mut p.journal;
    match field {
        SELECTION => p.selection = value as u16,
        PLAYING => p.playing = value == 1,
        PREVIEW => p.preview = value == 1,
        FRAME => p.frame = number,
        REACH => p.reach = value,
        REDO => p.redo = value,
        ACCEPTED => p.accepted = value,
        UNDONE => p.undone = value,
        REDONE => p.redone = value,
        STANDING => p.standing = value,
        TRACK => j.track[row] = value as u16,
        KEY => j.key[row] = value as u16,
        12 => j.before_frame[row] = number,
        13 => j.before_value[row] = number,
        14 => j.before_slope[row] = number,
        15 => j.after_frame[row] = number,
        16 => j.after_value[row] = number,
        17 => j.after_slope[row] = number,
        OPEN => p.drag.open = value == 1,
        MOVED => p.drag.moved = value == 1,
        DRAG_TRACK => p.drag.track = value as u16,
        DRAG_KEY => p.drag.key = value as u16,
        22 => p.drag.start_frame = number,
        23 => p.drag.start_value = number,
        24 => p.drag.start_slope = number,
        _ => panic!("no field {field}"),
    }
}
