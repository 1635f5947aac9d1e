//! Every short list over a few calls, which meet at the same keys: an edit moves
//! a bound of the next one, an undo takes it back, a pose changes the animation
//! between them. The tick runs on, wraps or ends.

use super::{Call, NONE, Request};

/// How long the lists are. Shorter ones are their beginnings.
pub const LENGTH: u32 = 5;

/// The calls, on each of `ends::pairs`. The tick is of 56 frames: an animation of
/// 60 runs on and ends at the second one, one of 30 ends at the first.
const CALLS: [Call; 11] = [
    Call::Play(0),
    Call::Pose(1, 2.0),
    Call::Pose(NONE, 2.0),
    Call::Tick { dt: 7.0, fps: 8.0 },
    key(0, 1, 6.0, 2.0),
    key(0, 0, 5.5, -1.0),
    key(1, 1, 1.0, 2.5),
    Call::Edit {
        track: 0,
        key: 1,
        request: Request::Slope(3.0),
    },
    key(2, 0, 1.0, 9.0),
    Call::Undo,
    Call::Redo,
];

const fn key(track: u16, key: u16, frame: f32, value: f32) -> Call {
    Call::Edit {
        track,
        key,
        request: Request::Key { frame, value },
    }
}

/// How many lists there are.
pub const COUNT: usize = CALLS.len().pow(LENGTH);

/// The list of a number: the first animation plays, then its calls, and then all
/// channels are read and the sheet is saved.
pub fn list(number: usize) -> Vec<Call> {
    let place = |i: u32| number / CALLS.len().pow(i) % CALLS.len();
    let mut list = vec![Call::Play(0)];
    list.extend((0..LENGTH).map(|i| CALLS[place(i)]));
    list.push(Call::ReadAll { short: 0 });
    list.push(Call::Save { short: 0 });
    list
}
