//! Dragging a key, rows and journal: cases by name, of the library beside the plain
//! machine and the plain player. What becomes of the key is in `dragged_keys.rs`,
//! broken states are in `broken_drags.rs`.

use cases::calls::player::{Drag, Entry, Player, ROWS};
use cases::calls::{Call, NONE};
use compare::both::{Both, drag, key_edit, open, slope_edit};

/// An edit of the base's middle Hermite key, no two alike.
fn edit(n: usize) -> Call {
    key_edit(0, 1, 4.0 + n as f32 / 256.0, n as f32)
}

/// What an edit and its like decline by 15 while a drag is open, and drag, drop and
/// abandon while none is.
#[test]
fn row_15_in_both_states() {
    let shut_out = [
        edit(3),
        slope_edit(0, 1, 2.0),
        Call::Undo,
        Call::Redo,
        open(0, 0),
    ];
    let of_a_drag = [drag(5.0, 2.0), Call::DropDrag, Call::AbandonDrag];
    let mut both = Both::base();
    both.accept_all([edit(1), edit(2), Call::Undo]);
    for call in of_a_drag {
        both.decline(call, 15);
    }
    for start in [vec![open(0, 1)], vec![open(0, 1), drag(6.0, 1.0)]] {
        both.accept_all(start);
        for call in shut_out {
            both.decline(call, 15);
        }
        both.accept(drag(5.5, 2.0));
        both.accept(Call::AbandonDrag);
    }
    // Each of them is accepted in the other state.
    for call in [
        Call::Redo,
        Call::Undo,
        edit(3),
        slope_edit(0, 1, 2.0),
        open(0, 0),
    ] {
        both.accept(call);
    }
    both.accept_all(of_a_drag[..2].iter().copied());
    both.accept_all([open(0, 0), Call::AbandonDrag]);
}

/// The order is 6, 15, 7, 8, 9 or 10, and 11.
#[test]
fn row_15_among_the_others() {
    let no_key = [
        open(0, 3),
        open(2, 0),
        key_edit(0, 3, 1.0, 1.0),
        slope_edit(3, 0, 1.0),
    ];
    let not_finite = [
        key_edit(0, 1, f32::NAN, 1.0),
        slope_edit(0, 1, f32::INFINITY),
    ];
    let mut both = Both::base();
    both.decline(drag(f32::NAN, 1.0), 15);
    for call in no_key {
        both.decline(call, 7);
    }
    for call in not_finite {
        both.decline(call, 8);
    }
    both.decline(slope_edit(1, 1, 1.0), 10);
    both.decline(Call::Undo, 11);
    both.decline(Call::Redo, 11);

    both.accept(open(0, 1));
    let behind = [slope_edit(1, 1, 1.0), Call::Undo, Call::Redo];
    for call in no_key.into_iter().chain(not_finite).chain(behind) {
        both.decline(call, 15);
    }
    both.decline(drag(f32::NAN, 1.0), 8);
    both.decline(drag(1.0, f32::NEG_INFINITY), 8);

    both.accept(Call::Pose(NONE, 0.0));
    for call in [open(0, 1), edit(1), slope_edit(0, 1, 1.0)]
        .into_iter()
        .chain(no_key)
    {
        both.decline(call, 6);
    }
    both.decline(Call::Undo, 15);
    both.accept(Call::DropDrag);
    both.decline(open(0, 1), 6);
    both.decline(Call::DropDrag, 15);
}

/// Opening leaves the keys and remembers the key as it is.
#[test]
fn what_is_remembered() {
    let mut both = Both::base();
    both.accept_all([edit(7), slope_edit(0, 1, 2.5)]);
    let (before, kept) = (both.player(), both.held().key_bits());
    both.accept(open(0, 1));
    let start = both.key(1).map(f32::to_bits);
    let drag = Drag {
        open: true,
        moved: false,
        track: 0,
        key: 1,
        start,
    };
    assert_eq!(both.player(), Player { drag, ..before });
    assert_eq!(both.held().key_bits(), kept);
}

#[test]
fn drags_that_are_all_declined() {
    let mut both = Both::base();
    both.accept_all([edit(1), edit(2), Call::Undo]);
    let (before, kept) = (both.player(), both.held().key_bits());
    for close in [Call::DropDrag, Call::AbandonDrag] {
        both.accept(open(0, 1));
        both.decline(drag(f32::NAN, 1.0), 8);
        both.decline(drag(5.0, f32::INFINITY), 8);
        both.accept(close);
        assert_eq!(
            (both.player(), both.held().key_bits()),
            (before.clone(), kept.clone())
        );
    }
    both.accept(Call::Redo);
}

/// A declined drag leaves the last accepted one.
#[test]
fn a_declined_drag_among_accepted_ones() {
    let mut both = Both::base();
    both.accept_all([open(0, 1), drag(5.0, 2.0)]);
    both.decline(drag(f32::NAN, 9.0), 8);
    both.accept(Call::DropDrag);
    assert_eq!(both.key(1), [5.0, 2.0, 0.0]);
    assert_eq!(both.player().standing, 1);
}

#[test]
fn forty_drags_are_one_edit() {
    let mut both = Both::base();
    both.accept_all([edit(5), edit(6), Call::Undo]);
    let (before, opening) = (both.player(), both.key(1));
    both.accept(open(0, 1));
    both.accept_all((0..40).map(|n| drag(1.0 + n as f32 / 8.0, n as f32)));
    // Only the flag has moved.
    let mut dragged = both.player();
    dragged.drag = Drag::default();
    assert_eq!(dragged, before);
    assert!(both.player().drag.moved);

    both.accept(Call::DropDrag);
    let last = both.key(1);
    assert_eq!(last, [1.0 + 39.0 / 8.0, 39.0, 0.0]);
    let mut expected = before;
    expected.edited(Entry {
        track: 0,
        key: 1,
        before: opening.map(f32::to_bits),
        after: last.map(f32::to_bits),
    });
    assert_eq!(both.player(), expected);
    assert_eq!(
        (expected.standing, expected.redo, expected.accepted),
        (2, 0, 3)
    );

    both.accept(Call::Undo);
    assert_eq!(both.key(1), opening);
    both.accept(Call::Redo);
    assert_eq!(both.key(1), last);
    both.decline(Call::Redo, 11);
}

#[test]
fn an_abandoned_drag_keeps_a_full_redo_list() {
    let mut both = Both::base();
    both.accept_all((0..ROWS).map(edit));
    both.accept_all([Call::Undo; ROWS]);
    let before = both.player();
    assert_eq!((before.reach, before.redo), (0, ROWS as u64));
    both.accept_all([
        open(0, 1),
        drag(6.0, 300.0),
        drag(7.0, 301.0),
        Call::AbandonDrag,
    ]);
    assert_eq!(both.player(), before);
    assert_eq!(both.save(), both.loaded());
    both.accept_all([Call::Redo; ROWS]);
    assert_eq!(both.key(1)[1], (ROWS - 1) as f32);
    both.decline(Call::Redo, 11);
}

/// The same dropped: nothing can be made again.
#[test]
fn a_dropped_drag_empties_a_full_redo_list() {
    let mut both = Both::base();
    both.accept_all((0..ROWS).map(edit));
    both.accept_all([Call::Undo; ROWS]);
    both.accept_all([open(0, 1), drag(6.0, 300.0), Call::DropDrag]);
    let after = both.player();
    assert_eq!((after.reach, after.redo, after.standing), (1, 0, 1));
    both.decline(Call::Redo, 11);
}

#[test]
fn a_drop_over_a_full_journal() {
    let mut both = Both::base();
    both.accept_all((0..ROWS).map(edit));
    let before = both.player();
    assert_eq!(before.reach, ROWS as u64);
    both.accept_all([open(1, 1), drag(1.0, 7.0)]);
    assert_eq!(both.player().journal, before.journal);
    both.accept(Call::DropDrag);
    let after = both.player();
    assert_eq!(
        (after.reach, after.standing),
        (ROWS as u64, ROWS as u64 + 1)
    );
    assert_eq!((after.journal[0].track, after.journal[0].key), (1, 1));
    assert_eq!(after.journal[1..], before.journal[1..]);
    both.accept_all([Call::Undo; ROWS]);
    both.decline(Call::Undo, 11);
    // The first edit stands and can't be undone.
    assert_eq!(both.key(1), [4.0, 0.0, 0.0]);
}
