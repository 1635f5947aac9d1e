//! How often random lists meet edits, drags and drops that are unchanged, each kind of
//! them by itself, and a change of no more than the sign of a zero.

use cases::calls::held::Held;
use cases::calls::unchanged::Unchanged;
use cases::calls::walk::{Step, Walk};
use cases::calls::{Call, Request, Told, table};
use cases::curves::{CONSTANT, HERMITE, STEP};
use cases::format::load::Arrays;

/// A frame and a value asked of a key, which has these numbers.
struct Asked {
    curve: u8,
    frame: f32,
    value: f32,
    key: [f32; 3],
}

type Kind = (&'static str, fn(&Asked) -> bool);

/// Unchanged, each for a reason of its own.
const KINDS: [Kind; 6] = [
    ("a Hermite key as it is", |a| {
        a.curve == HERMITE && [a.frame, a.value] == a.key[..2]
    }),
    ("a Constant with another frame", |a| {
        a.curve == CONSTANT && a.frame != 0.0
    }),
    ("a frame below 0, held at 0", |a| {
        a.curve != CONSTANT && a.frame < 0.0 && a.key[0] == 0.0
    }),
    ("a frame held below the next key", |a| {
        a.curve != CONSTANT && a.frame > a.key[0]
    }),
    ("a Step's value rounded", |a| {
        a.curve == STEP && a.value != a.key[1]
    }),
    ("a Step's +0 asked for -0", |a| {
        a.curve == STEP && a.value == 0.0 && a.value.is_sign_negative()
    }),
];

/// The track, the key and the request of an edit or a drag.
fn request(call: &Call, held: &Held) -> Option<(u16, u16, Request)> {
    match *call {
        Call::Edit {
            track,
            key,
            request,
        } => Some((track, key, request)),
        Call::Drag { frame, value } => {
            let drag = &held.player.drag;
            Some((drag.track, drag.key, Request::Key { frame, value }))
        }
        _ => None,
    }
}

#[derive(Default)]
struct Met {
    unchanged: Unchanged,
    kinds: [u64; KINDS.len()],
    /// Changes of the sign of a zero alone.
    signs: u64,
}

impl Met {
    /// An accepted edit or drag, and all keys before it.
    fn add(&mut self, call: &Call, unchanged: bool, before: &Arrays, held: &Held) {
        let Some((track, key, request)) = request(call, held) else {
            return;
        };
        let place = table::place(&held.sheet, track, key);
        let [old, new] = [before, &held.keys].map(|keys| keys.each_ref().map(|of| of[place]));
        self.signs += u64::from(!unchanged && old == new);
        if let Request::Key { frame, value } = request
            && unchanged
        {
            let asked = Asked {
                curve: held.sheet.targets[usize::from(track)].curve,
                frame,
                value,
                key: old,
            };
            let kinds = self.kinds.iter_mut().zip(KINDS);
            kinds.for_each(|(count, (_, is_met))| *count += u64::from(is_met(&asked)));
        }
    }
}

#[test]
fn each_kind_in_random_lists() {
    let mut met = Met::default();
    for seed in 0..4000 {
        let mut walk = Walk::of_seed(seed);
        let mut before = walk.held.keys.clone();
        while let Some(step) = walk.step() {
            if let Step::Called(call, answer) = &step {
                met.unchanged.add(call, answer, walk.held.player.redo);
                if let (0, Told::Edited { unchanged }) = (answer.refusal, &answer.told) {
                    met.add(call, *unchanged, &before, &walk.held);
                }
            }
            before.clone_from(&walk.held.keys);
        }
    }
    println!("unchanged: {}", met.unchanged);
    assert!(met.unchanged.is_whole() && met.unchanged.is_frequent());
    let kinds = KINDS
        .iter()
        .zip(met.kinds)
        .map(|(kind, count)| (kind.0, count));
    for (what, count) in kinds.chain([("a zero's sign alone", met.signs)]) {
        println!("{what}: {count}");
        assert!(count > 100, "{what}: {count}");
    }
}
