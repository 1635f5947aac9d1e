//! Drags and row 5: states that no list of calls leaves, of the library beside the
//! plain player.

use cases::bits::bits_of;
use cases::calls::player::Drag;
use cases::calls::spoil::{self, Spoil};
use cases::calls::{Answer, Call, NONE, Told};
use compare::both::{Both, drag, field, key_edit, open, slope_edit};

/// Calls that take keys, all but the last four of them readings.
fn takes_keys() -> Vec<Call> {
    let readings = [
        Call::ReadPane {
            pane: 0,
            channel: 0,
        },
        Call::ReadMaterial {
            material: 0,
            channel: 21,
        },
        Call::ReadAll { short: 0 },
        Call::ReadAll { short: 1 },
        Call::ResolvePane(0),
        Call::ResolveSrt {
            material: 0,
            layer: 0,
        },
        Call::TextureName {
            material: 0,
            slot: 0,
        },
        Call::Cascade { short: 0 },
    ];
    let others = [
        key_edit(0, 1, 5.0, 1.0),
        slope_edit(0, 1, 1.0),
        Call::Undo,
        Call::Redo,
        open(0, 1),
        drag(5.0, 1.0),
        drag(f32::NAN, 1.0),
        Call::DropDrag,
        Call::AbandonDrag,
        Call::Save { short: 0 },
        Call::Save { short: 1 },
    ];
    readings.into_iter().chain(others).collect()
}

/// Calls that take none, all of them accepted.
fn takes_none() -> [Call; 4] {
    [
        Call::Play(1),
        Call::Pose(0, 2.0),
        Call::Tick { dt: 0.5, fps: 8.0 },
        Call::Pose(NONE, 0.0),
    ]
}

/// A start number of the drag: 0 the frame, 1 the value, 2 the slope.
fn start(number: u8, x: f32) -> Spoil {
    field(spoil::START + number, u64::from(bits_of(x)))
}

/// A player of the base with an edit, one that can be made again, and a drag that was
/// accepted, of this key.
fn dragged(animation: u16, track: u16, key: u16) -> Both {
    let mut both = Both::base();
    both.accept_all([
        key_edit(1, 0, 0.5, 4.0),
        key_edit(1, 0, 0.25, 5.0),
        Call::Undo,
    ]);
    both.accept_all([Call::Play(animation), open(track, key), drag(5.0, 2.0)]);
    both
}

/// Row 5 declines these by themselves, and the state without the spoil none of them.
fn declined(both: &mut Both, spoil: &Spoil, calls: &[Call]) {
    let back = both.spoil(spoil);
    for &call in calls {
        assert_eq!(both.spoiled_call(call).refusal, 5, "{spoil:?}, {call:?}");
    }
    both.spoil(&back);
    let untouched = both.spoiled_call(Call::ReadAll { short: 0 });
    assert_eq!(untouched.refusal, 0, "{spoil:?}");
}

/// The drag's row is out of range: every call with a player is declined.
#[test]
fn a_row_out_of_range() {
    let all = [takes_keys(), takes_none().to_vec()].concat();
    for (track, key) in [(0, 0), (0, 2), (1, 1)] {
        let mut both = dragged(0, track, key);
        for track in [3, 4, 65_535] {
            declined(&mut both, &field(spoil::DRAG_TRACK, track), &all);
        }
        for key in [3, 4, 65_535] {
            declined(&mut both, &field(spoil::DRAG_KEY, key), &all);
        }
    }
}

/// The starting key, put back, breaks a key rule: what takes keys is declined, and
/// what takes none goes on.
#[test]
fn a_starting_key_that_breaks_the_rules() {
    let not_finite = [f32::NAN, f32::INFINITY, f32::NEG_INFINITY];
    let each = (0..3).flat_map(|number| not_finite.map(|x| start(number, x)));
    let hermite: Vec<Spoil> = each.clone().collect();
    let order = [start(0, 8.0f32.next_up()), start(0, 0.0f32.next_down())];
    let step = [
        start(1, 0.5),
        start(1, -0.0),
        start(1, -1.0),
        start(1, 65_536.0),
    ];
    let step_too = [start(2, -0.0), start(2, 1.0), start(0, 0.5f32.next_down())];
    let step_order = [start(0, 2.0f32.next_up())];
    let constant = [start(0, -0.0), start(0, 1.0), start(2, -0.0), start(2, 1.0)];
    let cases: [(Both, Vec<Spoil>); 3] = [
        (dragged(0, 0, 1), [&hermite[..], &order].concat()),
        (
            dragged(0, 1, 1),
            [&hermite[..], &step, &step_too, &step_order].concat(),
        ),
        (dragged(1, 2, 1), [&hermite[..], &constant].concat()),
    ];
    for (mut both, spoils) in cases {
        for spoil in &spoils {
            declined(&mut both, spoil, &takes_keys());
        }
        // The last one stays.
        both.spoil(spoils.last().expect("some"));
        for call in takes_none() {
            assert_eq!(both.spoiled_call(call).refusal, 0, "{call:?}");
        }
        assert_eq!(both.spoiled_call(Call::AbandonDrag).refusal, 5);
    }
}

/// At the neighbours' frames, and with any finite value and slope of a Hermite key,
/// it is put back.
#[test]
fn a_starting_key_at_its_bounds() {
    for frame in [0.0, -0.0, 8.0, 4.0] {
        let mut both = dragged(0, 0, 1);
        let spoils = [start(0, frame), start(1, f32::MIN), start(2, f32::MAX)];
        for spoil in &spoils {
            both.spoil(spoil);
        }
        assert_eq!(both.spoiled_call(drag(6.0, 1.0)).refusal, 0);
        assert_eq!(both.spoiled_call(Call::AbandonDrag).refusal, 0);
        let key = both.key(1).map(f32::to_bits);
        assert_eq!(key, [frame, f32::MIN, f32::MAX].map(f32::to_bits));
    }
}

/// A key beside it was moved, so that the starting key would break the order: the keys
/// as they are follow it.
#[test]
fn a_neighbour_that_was_moved() {
    let mut both = dragged(0, 0, 1);
    let neighbour = |index, frame: f32| Spoil::Key {
        array: 0,
        index,
        bits: frame.to_bits(),
    };
    // From 4 to 5 it was dragged.
    declined(&mut both, &neighbour(0, 4.5), &takes_keys());
    both.spoil(&neighbour(0, 4.0));
    assert_eq!(both.spoiled_call(Call::AbandonDrag).refusal, 0);
}

/// Rows 1, 3 and 4 come before, and with nothing active 6, 14 and 15 behind.
#[test]
fn the_rows_in_order() {
    let mut both = dragged(0, 0, 1);
    both.accept(Call::Pose(NONE, 0.0));
    let broken = start(0, f32::NAN);
    declined(&mut both, &broken, &takes_keys());
    both.spoil(&broken);
    let sheet = both.loaded();
    let rows = [
        (
            Spoil::Key {
                array: 1,
                index: 1,
                bits: f32::NAN.to_bits(),
            },
            4,
        ),
        (Spoil::Short(2), 3),
        (Spoil::Sheet(sheet[..sheet.len() - 1].to_vec()), 1),
    ];
    for (spoil, refusal) in &rows {
        both.spoil(spoil);
        for call in takes_keys() {
            assert_eq!(both.spoiled_call(call).refusal, *refusal, "{call:?}");
        }
    }
}

/// While a drag is open nothing is asked of the entry that an undo or redo would
/// take; once it is closed, it is.
#[test]
fn an_entry_while_a_drag_is_open() {
    let mut both = dragged(0, 0, 1);
    // The key that both entries are of is not as they left and found it.
    both.spoil(&Spoil::Key {
        array: 1,
        index: 3,
        bits: 9.0f32.to_bits(),
    });
    for call in [Call::Undo, Call::Redo] {
        assert_eq!(both.spoiled_call(call).refusal, 15, "{call:?}");
    }
    assert_eq!(both.spoiled_call(Call::AbandonDrag).refusal, 0);
    for call in [Call::Undo, Call::Redo] {
        assert_eq!(both.spoiled_call(call).refusal, 5, "{call:?}");
    }
}

/// Closed, no field is looked at, and none is moved.
#[test]
fn a_closed_drag_of_any_numbers() {
    let anything = [
        field(spoil::MOVED, 1),
        field(spoil::DRAG_TRACK, 65_535),
        field(spoil::DRAG_KEY, 65_535),
        start(0, f32::NAN),
        start(1, f32::INFINITY),
        start(2, f32::NEG_INFINITY),
    ];
    let mut both = Both::base();
    both.accept_all([
        key_edit(1, 0, 0.5, 4.0),
        key_edit(1, 0, 0.25, 5.0),
        Call::Undo,
    ]);
    for spoil in &anything {
        both.spoil(spoil);
    }
    let numbers = both.player().drag;
    assert!(!numbers.open && numbers.moved);
    for call in [drag(5.0, 1.0), Call::DropDrag, Call::AbandonDrag] {
        assert_eq!(both.spoiled_call(call).refusal, 15, "{call:?}");
    }
    let accepted = [
        Call::Undo,
        Call::Redo,
        Call::Redo,
        key_edit(0, 1, 5.0, 1.0),
        slope_edit(0, 1, 1.0),
        Call::ReadAll { short: 0 },
        Call::Cascade { short: 0 },
        Call::Save { short: 0 },
    ];
    for call in accepted.into_iter().chain(takes_none()) {
        assert_eq!(both.spoiled_call(call).refusal, 0, "{call:?}");
        assert_eq!(both.player().drag, numbers, "{call:?}");
    }
    // Opening sets every field, dropping clears it.
    for call in [Call::Play(0), open(0, 1)] {
        assert_eq!(both.spoiled_call(call).refusal, 0);
    }
    let opened = both.player().drag;
    assert_eq!((opened.open, opened.moved), (true, false));
    assert_eq!((opened.track, opened.key), (0, 1));
    assert_eq!(both.spoiled_call(Call::DropDrag).refusal, 0);
    assert_eq!(both.player().drag, Drag::default());
}

/// A drop after these changes by hand: how many edits it leaves, none where it is
/// unchanged.
fn dropped(both: &mut Both, spoils: &[Spoil]) -> u64 {
    for spoil in spoils {
        both.spoil(spoil);
    }
    let Answer { refusal, told } = both.spoiled_call(Call::DropDrag);
    let standing = both.player().standing;
    let unchanged = standing == 0;
    assert_eq!((refusal, told), (0, Told::Edited { unchanged }));
    standing
}

/// A flag set by hand: the key has its starting bits.
#[test]
fn moved_by_hand() {
    let mut both = Both::base();
    both.accept(open(0, 1));
    assert_eq!(dropped(&mut both, &[field(spoil::MOVED, 1)]), 0);

    // Cleared by hand: the key stays where it was dragged.
    let mut both = Both::base();
    both.accept_all([open(0, 1), drag(5.0, 2.0)]);
    assert_eq!(dropped(&mut both, &[field(spoil::MOVED, 0)]), 0);
    assert_eq!(both.key(1), [5.0, 2.0, 0.0]);
}

/// A drop goes by the starting key that the player carries, whatever the key was.
#[test]
fn started_by_hand() {
    let away = || {
        let mut both = Both::base();
        both.accept_all([open(0, 1), drag(5.0, 2.0)]);
        both
    };
    let (frame, value) = (start(0, 5.0), start(1, 2.0));
    let mut both = away();
    assert_eq!(dropped(&mut both, &[frame.clone(), value.clone()]), 0);
    assert_eq!(both.key(1), [5.0, 2.0, 0.0]);
    for one in [start(0, 4.0), start(1, -2.5), start(2, -0.0)] {
        let spoils = [frame.clone(), value.clone(), one];
        assert_eq!(dropped(&mut away(), &spoils), 1);
    }
}
