//! Drags that leave a key where it is, and drops on the starting bits: cases by name, of
//! the library beside the plain machine and the plain player.

use cases::calls::Call;
use compare::both::{Both, MIDDLE, drag, edit, hermite, key_edit, open};

/// Back to where the middle key is loaded.
fn back() -> Call {
    drag(MIDDLE.0, MIDDLE.1)
}

#[test]
fn there_and_back() {
    let mut both = Both::base();
    both.accept_all([edit(1), edit(2), Call::Undo]);
    let (before, keys) = (both.player(), both.held().key_bits());
    both.accept(open(0, 1));
    both.change(drag(5.0, 2.0));
    both.change(drag(6.0, 2.0));
    both.change(back());
    assert!(both.player().drag.moved);
    both.leave(Call::DropDrag);
    assert_eq!((both.player(), both.held().key_bits()), (before, keys));
    both.decline(Call::DropDrag, 15);
    both.accept(Call::Redo);
}

#[test]
fn no_accepted_drag() {
    let mut both = Both::base();
    both.accept_all([edit(1), edit(2), Call::Undo]);
    let before = both.player();
    both.accept(open(0, 1));
    both.leave(Call::DropDrag);
    both.accept(open(0, 1));
    both.decline(drag(f32::NAN, 1.0), 8);
    both.leave(Call::DropDrag);
    assert_eq!(both.player(), before);
}

/// An unchanged drag is accepted too.
#[test]
fn to_where_the_key_is() {
    let mut both = Both::base();
    let before = both.player();
    both.accept(open(0, 1));
    both.leave(back());
    assert!(both.player().drag.moved);
    both.leave(Call::DropDrag);
    assert_eq!(both.player(), before);

    both.accept(open(0, 1));
    both.leave(back());
    both.accept(Call::AbandonDrag);
    assert_eq!(both.player(), before);
}

/// A drag is held against the key where it is now, the drop against the key at opening.
#[test]
fn to_the_same_place_twice() {
    let mut both = Both::base();
    both.accept(open(0, 1));
    both.change(drag(100.0, 2.0));
    both.leave(drag(100.0, 2.0));
    both.leave(drag(8.0, 2.0));
    both.change(Call::DropDrag);
    let player = both.player();
    assert_eq!((player.accepted, player.reach, player.standing), (1, 1, 1));
    both.accept(Call::Undo);
    assert_eq!(both.save(), both.loaded());
}

/// The opening is of the key as an edit left it, not as it is loaded.
#[test]
fn back_to_an_edited_key() {
    let mut both = Both::base();
    both.accept_all([key_edit(0, 1, 5.0, 2.0), open(0, 1)]);
    both.change(back());
    both.change(drag(5.0, 2.0));
    both.leave(Call::DropDrag);
    both.accept(open(0, 1));
    both.change(back());
    both.change(Call::DropDrag);
    assert_eq!(both.player().standing, 2);
}

#[test]
fn to_the_other_zero() {
    let mut both = Both::play(&hermite(&[0.0, 4.0]));
    both.accept(open(0, 1));
    both.change(drag(4.0, -0.0));
    both.change(Call::DropDrag);
    let entry = both.player().journal[0];
    assert_eq!([entry.before[1], entry.after[1]], [0, 0x8000_0000]);
}

/// What is compared is what is stored: a frame held at 0 and a value made whole of a
/// Step, and a Constant's value alone.
#[test]
fn of_a_step_and_of_a_constant() {
    let cases = [
        (0, open(1, 0), drag(-4.0, 1.4)),
        (1, open(2, 1), drag(7.0, 1.5)),
    ];
    for (animation, open, same) in cases {
        let mut both = Both::base();
        both.accept_all([Call::Play(animation), open]);
        both.leave(same);
        both.change(drag(0.0, 9.0));
        both.change(same);
        both.leave(Call::DropDrag);
        assert_eq!(both.save(), both.loaded());
    }
}
