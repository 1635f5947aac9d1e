//! Dragging a key: what becomes of the key, cases by name, of the library beside the
//! plain machine and the plain player.

use cases::calls::{Call, NONE, One, Told};
use cases::format::sheet::Sheet;
use compare::both::{Both, drag, hermite, key_edit, open};

/// Both bounds of the clamp, of the first key, one in the middle, the last and the
/// only one.
#[test]
fn each_place_of_a_key() {
    let step = 0.01;
    let cases: [(&[f32], u16, [f32; 2]); 4] = [
        (&[0.0, 4.0, 8.0], 0, [0.0, 4.0 - step]),
        (&[0.0, 4.0, 8.0], 1, [0.0 + step, 8.0 - step]),
        (&[0.0, 4.0, 8.0], 2, [4.0 + step, f32::MAX]),
        (&[3.0], 0, [0.0, f32::MAX]),
    ];
    for (frames, number, [low, high]) in cases {
        let mut both = Both::play(&hermite(frames));
        let place = usize::from(number);
        both.accept(open(0, number));
        for (asked, frame) in [(f32::MIN, low), (f32::MAX, high), (high, high), (low, low)] {
            both.accept(drag(asked, 1.0));
            assert_eq!(both.key(place), [frame, 1.0, 0.0]);
        }
        both.accept(Call::DropDrag);
        assert_eq!(both.key(place)[0], low);
        both.accept(Call::Undo);
        assert_eq!(both.save(), both.loaded());
    }
}

/// A Step's value becomes whole, and a zero +0.
#[test]
fn a_key_of_a_step() {
    let mut both = Both::base();
    both.accept(open(1, 1));
    for (value, whole) in [(2.5, 3.0), (-0.4, 0.0), (70_000.0, 65_535.0), (6.0, 6.0)] {
        both.accept(drag(1.5, value));
        assert_eq!(
            both.key(4).map(f32::to_bits),
            [1.5, whole, 0.0].map(f32::to_bits)
        );
    }
    both.accept_all([Call::DropDrag, Call::Undo]);
    assert_eq!(both.save(), both.loaded());
}

/// A Constant's frame stays.
#[test]
fn a_key_of_a_constant() {
    let mut both = Both::base();
    both.accept_all([Call::Play(1), open(2, 1), drag(5.0, 9.0), drag(-5.0, -0.5)]);
    assert_eq!(
        both.key(7).map(f32::to_bits),
        [0.0, -0.5, 0.0].map(f32::to_bits)
    );
    both.accept(Call::AbandonDrag);
    assert_eq!(both.save(), both.loaded());
}

/// "frames 1, 1, 1, middle edited": there is no room until the first is moved.
#[test]
fn no_room_between_the_neighbours() {
    let mut both = Both::play(&hermite(&[1.0; 3]));
    for close in [Call::DropDrag, Call::AbandonDrag] {
        both.accept(open(0, 1));
        both.decline(drag(1.0, 1.0), 9);
        both.decline(drag(0.0, 1.0), 9);
        both.accept(close);
        assert_eq!(both.save(), both.loaded());
    }
    both.accept_all([key_edit(0, 0, 0.5, 0.0), open(0, 1), drag(2.0, 1.0)]);
    assert_eq!(both.key(1)[0], 1.0 - 0.01);
}

/// Drags go on in the animation of opening, whatever is played or posed.
#[test]
fn another_animation_or_none() {
    let others = [
        Call::Play(1),
        Call::Pose(1, 3.0),
        Call::Pose(NONE, 0.0),
        Call::Pose(2, 0.0),
    ];
    for other in others {
        let mut both = Both::base();
        both.accept_all([open(0, 1), other, drag(5.0, 2.0), other, drag(6.0, 3.0)]);
        both.accept_all([Call::Tick { dt: 0.5, fps: 8.0 }, Call::ReadAll { short: 0 }]);
        assert_eq!(both.key(1), [6.0, 3.0, 0.0]);
        both.accept(Call::DropDrag);
        assert_eq!(both.player().standing, 1);
        both.accept(Call::Undo);
        assert_eq!(both.save(), both.loaded());

        both.accept_all([
            Call::Play(0),
            open(0, 1),
            other,
            drag(5.0, 2.0),
            Call::AbandonDrag,
        ]);
        assert_eq!(both.save(), both.loaded());
    }
}

/// Readings and saves see the key where it is.
#[test]
fn the_dragged_key_is_seen() {
    let mut both = Both::base();
    both.accept_all([Call::Pose(0, 6.0), open(0, 1), drag(6.0, 40.0)]);
    let read = Call::ReadPane {
        pane: 0,
        channel: 0,
    };
    let told = both.call(read).told;
    assert_eq!(told, Told::One(One::Number(40.0f32.to_bits())));
    let saved = Sheet::read(&both.save()).expect("a sheet");
    assert_eq!((saved.frames[1], saved.values[1]), (6.0, 40.0));
    both.accept(Call::AbandonDrag);
    assert_ne!(both.call(read).told, told);
    assert_eq!(both.save(), both.loaded());
}
