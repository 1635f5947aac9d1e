//! Edits that leave a key's bits as they are: cases by name, of the library beside the
//! plain machine and the plain player. Drags are in `unchanged_drags.rs`.

use cases::calls::player::ROWS;
use cases::calls::spoil::{self, Spoil};
use cases::calls::{Answer, Call, NONE, Told};
use compare::both::{Both, MIDDLE, drag, edit, field, hermite, key_edit, open, slope_edit};

/// Return on the base's middle Hermite key.
fn pressed() -> Call {
    key_edit(0, 1, MIDDLE.0, MIDDLE.1)
}

/// "An artist undid five moves, clicked a key, pressed return": all five come back. So
/// do as many as a journal holds.
#[test]
fn what_was_undone_can_be_made_again() {
    for moves in [5, ROWS] {
        let mut both = Both::base();
        (0..moves).for_each(|n| both.change(edit(n)));
        let (mut player, keys) = (both.player(), both.held().key_bits());
        both.accept_all(vec![Call::Undo; moves]);
        both.leave(pressed());
        both.leave(slope_edit(0, 1, 0.0));
        both.accept_all(vec![Call::Redo; moves]);
        (player.undone, player.redone) = (moves as u64, moves as u64);
        assert_eq!((both.player(), both.held().key_bits()), (player, keys));
        both.decline(Call::Redo, 11);
    }
}

/// The same between two redos and after the last, and with nothing to undo or redo.
#[test]
fn return_at_any_time() {
    let mut both = Both::base();
    both.leave(pressed());
    both.accept_all([edit(1), edit(2), Call::Undo, Call::Undo, Call::Redo]);
    both.leave(edit(1));
    both.accept(Call::Redo);
    both.leave(edit(2));
    both.leave(pressed());
    both.accept_all([Call::Undo, Call::Undo]);
    both.decline(Call::Undo, 11);
    assert_eq!(both.save(), both.loaded());
}

/// "−0 and +0 differ."
#[test]
fn zeros_of_a_hermite_key() {
    let mut both = Both::base();
    both.change(key_edit(0, 1, 4.0, 0.0));
    for zero in [-0.0, 0.0] {
        both.change(key_edit(0, 1, 4.0, zero));
        both.leave(key_edit(0, 1, 4.0, zero));
    }
    both.leave(slope_edit(0, 1, 0.0));
    for zero in [-0.0, 0.0] {
        both.change(slope_edit(0, 1, zero));
        both.leave(slope_edit(0, 1, zero));
    }
    for zero in [-0.0, 0.0] {
        both.change(key_edit(0, 0, zero, 1.0));
        both.leave(key_edit(0, 0, zero, 1.0));
    }
    assert_eq!(both.player().accepted, 7);
}

/// A Step stores +0 for each of these.
#[test]
fn zeros_of_a_step_key() {
    let mut both = Both::base();
    both.change(key_edit(1, 0, 0.0, 0.0));
    for value in [0.0, -0.0, -0.4, 0.4, -7.0] {
        both.leave(key_edit(1, 0, 0.0, value));
        assert_eq!(both.key(3)[1].to_bits(), 0);
    }
}

/// What is compared is the value that is stored.
#[test]
fn a_step_value_that_is_rounded() {
    let mut both = Both::base();
    both.change(key_edit(1, 0, 0.0, 2.0));
    for value in [2.4, 1.5, 2.0] {
        both.leave(key_edit(1, 0, 0.0, value));
    }
    both.change(key_edit(1, 0, 0.0, 2.5));
    both.change(key_edit(1, 0, 0.0, 70_000.0));
    both.leave(key_edit(1, 0, 0.0, 65_535.0));
    // The frame alone.
    both.change(key_edit(1, 0, 1.0, 65_535.0));
}

/// A Constant has no frame to change.
#[test]
fn a_constant_with_another_frame() {
    let mut both = Both::base();
    both.accept(Call::Play(1));
    for frame in [0.0, -0.0, 5.0, -5.0, f32::MAX] {
        both.leave(key_edit(2, 1, frame, 1.5));
    }
    both.change(key_edit(2, 1, 5.0, 0.0));
    both.leave(key_edit(2, 1, 6.0, 0.0));
    both.change(key_edit(2, 1, 6.0, -0.0));
}

#[test]
fn a_slope() {
    let mut both = Both::base();
    for (key, slope) in [(0, 0.5), (1, 0.0), (2, -1.0)] {
        both.leave(slope_edit(0, key, slope));
        both.change(slope_edit(0, key, slope + 1.0));
        both.leave(slope_edit(0, key, slope + 1.0));
    }
}

/// What is compared is the frame that is stored.
#[test]
fn a_frame_that_is_clamped() {
    let mut both = Both::base();
    // The first key is at 0.
    both.leave(key_edit(0, 0, -4.0, 1.0));
    both.change(key_edit(0, 0, -4.0, 2.0));
    both.leave(key_edit(0, 0, f32::MIN, 2.0));
    // At -0 it isn't where the clamp holds it.
    both.change(key_edit(0, 0, -0.0, 2.0));
    both.change(key_edit(0, 0, -4.0, 2.0));
    // The middle one, to the bound below the next key and to the one above the first.
    for beyond in [100.0, -100.0] {
        both.change(key_edit(0, 1, beyond, -2.5));
        let [bound, ..] = both.key(1);
        for frame in [beyond, bound, 2.0 * beyond] {
            both.leave(key_edit(0, 1, frame, -2.5));
        }
    }
}

/// The journal keeps the key's two states, and one bit tells them apart.
#[test]
fn one_bit_of_each_number() {
    let [frame, value, slope] = [4.0f32, -2.5, 0.0].map(f32::next_up);
    let edits = [
        key_edit(0, 1, frame, MIDDLE.1),
        key_edit(0, 1, MIDDLE.0, value),
        slope_edit(0, 1, slope),
    ];
    for edit in edits {
        let mut both = Both::base();
        both.change(edit);
        both.leave(edit);
        both.accept(Call::Undo);
        assert_eq!(both.save(), both.loaded());
    }
}

/// Each of these asks for what the key has, or for no number.
#[test]
fn refusals_come_first() {
    let mut both = Both::base();
    both.decline(key_edit(0, 1, f32::NAN, MIDDLE.1), 8);
    both.decline(key_edit(0, 1, MIDDLE.0, f32::INFINITY), 8);
    both.decline(slope_edit(0, 1, f32::NAN), 8);
    both.decline(slope_edit(1, 0, 0.0), 10);
    both.decline(key_edit(2, 1, 0.0, 1.5), 7);
    both.decline(key_edit(0, 3, 0.0, 0.0), 7);
    both.decline(drag(MIDDLE.0, MIDDLE.1), 15);
    both.decline(Call::DropDrag, 15);

    both.accept(open(0, 1));
    both.decline(pressed(), 15);
    both.decline(slope_edit(0, 1, 0.0), 15);
    both.decline(drag(f32::NAN, MIDDLE.1), 8);
    both.accept_all([Call::AbandonDrag, Call::Pose(NONE, 0.0)]);
    both.decline(pressed(), 6);
    both.decline(slope_edit(0, 1, 0.0), 6);

    let mut tight = Both::play(&hermite(&[1.0; 3]));
    tight.decline(key_edit(0, 1, 1.0, 0.0), 9);
    tight.accept(open(0, 1));
    tight.decline(drag(1.0, 0.0), 9);
}

/// Rows 1 and 3 to 5 too: of an edit, a slope edit, a drag and a drop, each of which is
/// unchanged where nothing is broken.
#[test]
fn broken_states_are_declined_first() {
    let edits = [pressed(), slope_edit(0, 1, 0.0)];
    let drags = [drag(MIDDLE.0, MIDDLE.1), Call::DropDrag];
    for (start, calls) in [(Call::Play(0), edits), (open(0, 1), drags)] {
        let mut both = Both::base();
        both.accept(start);
        let sheet = both.loaded();
        let broken = [
            (field(spoil::STANDING, 2), 5),
            (
                Spoil::Key {
                    array: 1,
                    index: 0,
                    bits: f32::NAN.to_bits(),
                },
                4,
            ),
            (Spoil::Short(3), 3),
            (Spoil::Sheet(sheet[..sheet.len() - 1].to_vec()), 1),
        ];
        for (spoil, refusal) in &broken {
            let back = both.spoil(spoil);
            for call in calls {
                assert_eq!(both.spoiled_call(call).refusal, *refusal, "{call:?}");
            }
            both.spoil(&back);
        }
        calls.into_iter().for_each(|call| both.leave(call));
    }
}

/// A player of the base with 2^40 accepted edits, of which all stand or none does.
fn most(other: u8) -> Both {
    const MOST: u64 = 1 << 40;
    let mut both = Both::base();
    both.spoil(&field(spoil::ACCEPTED, MOST));
    both.spoil(&field(other, MOST));
    both
}

/// Row 5 declines "a count .. over 2^40", so that one more edit is accepted and nothing
/// after it; an unchanged one counts nothing, and all goes on.
#[test]
fn a_count_at_its_edge() {
    let answered = |both: &mut Both, call: Call, unchanged: bool| {
        let Answer { refusal, told } = both.spoiled_call(call);
        assert_eq!((refusal, told), (0, Told::Edited { unchanged }), "{call:?}");
    };
    for other in [spoil::STANDING, spoil::UNDONE] {
        let mut both = most(other);
        let before = both.player();
        for _ in 0..2 {
            answered(&mut both, pressed(), true);
            answered(&mut both, slope_edit(0, 1, 0.0), true);
        }
        assert_eq!(both.spoiled_call(open(0, 1)).refusal, 0);
        answered(&mut both, drag(5.0, 2.0), false);
        answered(&mut both, drag(MIDDLE.0, MIDDLE.1), false);
        answered(&mut both, Call::DropDrag, true);
        assert_eq!(both.player(), before);

        answered(&mut both, edit(1), false);
        assert_eq!(both.player().accepted, before.accepted + 1);
        for call in [edit(1), edit(2), Call::Undo, Call::ReadAll { short: 0 }] {
            assert_eq!(both.spoiled_call(call).refusal, 5, "{call:?}");
        }

        let mut both = most(other);
        assert_eq!(both.spoiled_call(open(0, 1)).refusal, 0);
        answered(&mut both, drag(5.0, 2.0), false);
        answered(&mut both, Call::DropDrag, false);
        assert_eq!(both.spoiled_call(pressed()).refusal, 5);
    }
}
