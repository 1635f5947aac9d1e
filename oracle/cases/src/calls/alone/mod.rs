//! Every field of the player and of its drag, every row of the journal, every key
//! and every length spoiled alone, and several of rows 1 to 5 broken at once, in a
//! few states, with calls of every kind.

mod spoils;

use super::ends;
use super::held::Held;
use super::player::ROWS;
use super::{Call, NONE, Request};
pub use spoils::spoils;

/// How many edits fill a journal, and some more.
const MANY: usize = ROWS + 12;

/// A drag between the frames of a key's neighbours.
const DRAG: Call = Call::Drag {
    frame: 1.25,
    value: 3.0,
};

/// Where the middle key of the first track is loaded.
const BACK: Call = Call::Drag {
    frame: 4.0,
    value: -2.5,
};

const fn open(track: u16, key: u16) -> Call {
    Call::OpenDrag { track, key }
}

/// A state: freshly loaded, and then these calls, all of them accepted. Each sheet
/// has a curve of each kind with three keys, the first two in the first animation.
pub fn states() -> Vec<(Held, Vec<Call>)> {
    let selected = vec![Call::Play(0)];
    let edits = |n: usize| -> Vec<Call> { (0..n).map(edit).collect() };
    let lists = [
        Vec::new(),
        selected.clone(),
        [&selected[..], &edits(6), &[Call::Undo; 2]].concat(),
        [&selected[..], &edits(MANY), &[Call::Undo; 20]].concat(),
        [&selected[..], &edits(MANY)].concat(),
        [&selected[..], &edits(ROWS), &[Call::Undo; ROWS]].concat(),
        [&selected[..], &edits(MANY), &[Call::Undo; ROWS]].concat(),
        [&selected[..], &[open(0, 1)]].concat(),
        [
            &selected[..],
            &edits(6),
            &[Call::Undo; 2],
            &[open(1, 1), DRAG],
        ]
        .concat(),
        [
            &selected[..],
            &edits(MANY),
            &[open(0, 2), DRAG, Call::Play(1)],
        ]
        .concat(),
        vec![Call::Play(1), open(2, 0), DRAG, Call::Pose(NONE, 0.0)],
        [
            &selected[..],
            &[edit(1), edit(3), Call::Undo],
            &[open(0, 1), DRAG, BACK],
        ]
        .concat(),
    ];
    let mut states = Vec::new();
    for (sheet, book) in ends::pairs() {
        let calls = lists.iter().cloned();
        states.extend(calls.map(|calls| (Held::new(&sheet, &book), calls)));
    }
    states
}

/// Edits that go round the keys of the first two tracks, no two alike.
fn edit(n: usize) -> Call {
    let track = (n % 2) as u16;
    let key = (n / 2 % 3) as u16;
    let frame = f32::from(key) * 3.0 + n as f32 / 256.0;
    let request = if n % 5 == 4 && track == 0 {
        Request::Slope(n as f32)
    } else {
        Request::Key {
            frame,
            value: n as f32,
        }
    };
    Call::Edit {
        track,
        key,
        request,
    }
}

fn texture_name(material: u16, slot: u16) -> Call {
    Call::TextureName { material, slot }
}

/// Calls of every kind, accepted and declined.
pub fn calls() -> Vec<Call> {
    let key_edit = |key, frame| Call::Edit {
        track: 0,
        key,
        request: Request::Key { frame, value: 2.0 },
    };
    let slope = |track, slope| Call::Edit {
        track,
        key: 2,
        request: Request::Slope(slope),
    };
    vec![
        Call::Play(1),
        Call::Play(2),
        Call::Play(NONE),
        Call::Pose(0, 1.5),
        Call::Pose(7, 1.5),
        Call::Pose(0, f32::NAN),
        Call::Tick { dt: 0.5, fps: 8.0 },
        Call::Tick { dt: 8.0, fps: 8.0 }, // past each animation's end
        Call::Tick {
            dt: f32::MAX,
            fps: f32::MAX,
        },
        key_edit(1, 4.0),
        key_edit(3, 4.0),
        key_edit(0, f32::INFINITY),
        // As the key is loaded.
        Call::Edit {
            track: 0,
            key: 2,
            request: Request::Key {
                frame: 8.0,
                value: 3.0,
            },
        },
        slope(0, -1.0), // as it is loaded
        slope(0, -2.0),
        slope(1, -1.0),
        Call::Undo,
        Call::Redo,
        open(0, 1),
        open(0, 3),
        open(2, 0), // of the second animation
        open(3, 0),
        DRAG,
        BACK,
        Call::Drag {
            frame: 100.0,
            value: -0.5,
        },
        Call::Drag {
            frame: f32::NAN,
            value: 1.0,
        },
        Call::Drag {
            frame: 1.0,
            value: f32::NEG_INFINITY,
        },
        Call::DropDrag,
        Call::AbandonDrag,
        Call::ReadPane {
            pane: 0,
            channel: 0,
        },
        Call::ReadPane {
            pane: 0,
            channel: 28,
        },
        Call::ReadMaterial {
            material: 0,
            channel: 21,
        },
        Call::ReadAll { short: 0 },
        Call::ReadAll { short: 1 },
        Call::ReadAll { short: 2 },
        Call::ReadAll { short: 3 },
        Call::ReadAll { short: 4 },
        Call::ResolvePane(0),
        Call::ResolveSrt {
            material: 0,
            layer: 1,
        },
        texture_name(1, 2),
        texture_name(1, 3),
        texture_name(0, 4),
        texture_name(0, NONE),
        Call::Cascade { short: 0 },
        Call::Cascade { short: 1 },
        Call::Cascade { short: 2 },
        Call::Cascade { short: 3 },
        Call::Cascade { short: 4 },
        Call::Cascade { short: 5 },
        Call::Cascade { short: 6 },
        Call::NextName(0),
        Call::Save { short: 0 },
        Call::Save { short: 1 },
        Call::Save { short: 2 },
        Call::Save { short: 3 },
    ]
}
