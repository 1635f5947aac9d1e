//! Document 01's known poses of ticks, edits and the cascade, its sentences on undo
//! and redo, and document 02's on drags and unchanged keys, of the plain machine and of
//! the player beside it, which `Walk` holds against each other at every call.

use cases::calls::player::{Player, ROWS};
use cases::calls::walk::{Step, Walk};
use cases::calls::{Answer, Call, Request, Tick, Told};
use cases::curves::HERMITE;
use cases::format::book::{Book, INFLUENCES_ALPHA, NO_PARENT, VISIBLE};
use cases::format::load::Arrays;
use cases::format::name;
use cases::format::sheet::{Animation, Content, Sheet, Target};
use cases::random::Random;
use cases::sheets::{books, damage};

/// One animation of 60 frames and one Hermite curve with these frames, which
/// moves a pane's alpha.
fn sheet(looping: bool, frames: &[f32]) -> Sheet {
    Sheet {
        animations: vec![Animation {
            frame_count: 60,
            looping: looping as u8,
            next_present: 1,
            next: name("next"),
        }],
        contents: vec![Content {
            name: name("pane"),
            ..Content::default()
        }],
        targets: vec![Target {
            code: *b"FLVC",
            raw: 16,
            curve: HERMITE,
            key_count: frames.len() as u16,
            ..Target::default()
        }],
        frames: frames.to_vec(),
        values: vec![127.5; frames.len()],
        slopes: vec![0.0; frames.len()],
        ..Sheet::default()
    }
}

fn walk(sheet: &Sheet) -> Walk {
    walk_over(sheet, &damage::book::base())
}

fn walk_over(sheet: &Sheet, book: &Book) -> Walk {
    Walk::new(Random::new(1), sheet, book, 0)
}

fn answer(walk: &mut Walk, call: Call) -> Answer {
    match walk.call(call) {
        Step::Called(_, answer) => answer,
        Step::Spoiled(_) => panic!("a call is no spoil"),
    }
}

fn refusal(walk: &mut Walk, call: Call) -> u8 {
    answer(walk, call).refusal
}

/// Whether an edit, a drag or a drop, which is accepted, is unchanged.
fn unchanged(walk: &mut Walk, call: Call) -> bool {
    let Answer { refusal, told } = answer(walk, call);
    let unchanged = told == Told::Edited { unchanged: true };
    assert_eq!((refusal, told), (0, Told::Edited { unchanged }));
    unchanged
}

fn tick(walk: &mut Walk, dt: f32, fps: f32) -> (Told, f32) {
    let told = answer(walk, Call::Tick { dt, fps }).told;
    (told, f32::from_bits(walk.held.player.frame))
}

fn edit(key: u16, frame: f32) -> Call {
    let value = 1.0;
    Call::Edit {
        track: 0,
        key,
        request: Request::Key { frame, value },
    }
}

#[test]
fn ticks() {
    for (looping, expected, left) in [
        (true, Tick::Running, 2.0),
        (false, Tick::Next(name("next")), 60.0),
    ] {
        let mut walk = walk(&sheet(looping, &[]));
        assert_eq!(tick(&mut walk, 1.0, 1.0), (Told::Tick(Tick::Idle), 0.0));
        answer(&mut walk, Call::Play(0));
        assert_eq!(
            tick(&mut walk, 58.0, 1.0),
            (Told::Tick(Tick::Running), 58.0)
        );
        assert_eq!(tick(&mut walk, 0.5, 8.0), (Told::Tick(expected), left));
        assert_eq!(walk.held.player.playing, looping);
    }
    let mut walk = walk(&sheet(true, &[]));
    answer(&mut walk, Call::Play(0));
    assert_eq!(tick(&mut walk, 60.0, 1.0), (Told::Tick(Tick::Running), 0.0));
}

#[test]
fn a_key_edit_is_clamped() {
    let mut walk = walk(&sheet(true, &[0.0, 5.0]));
    assert_eq!(refusal(&mut walk, edit(0, -4.0)), 6);
    answer(&mut walk, Call::Pose(0, 0.0));
    assert_eq!(refusal(&mut walk, edit(0, -4.0)), 0);
    assert_eq!(walk.held.keys[0], [0.0, 5.0]);
    assert_eq!(refusal(&mut walk, edit(0, 9.0)), 0);
    assert_eq!(walk.held.keys[0], [5.0 - 0.01, 5.0]);
    assert_eq!(refusal(&mut walk, edit(2, 9.0)), 7);
    assert_eq!(refusal(&mut walk, edit(0, f32::NAN)), 8);
}

/// "clamped frame above the next key's (frames 1, 1, 1, middle edited)"
#[test]
fn no_room_between_the_neighbours() {
    let mut walk = walk(&sheet(true, &[1.0, 1.0, 1.0]));
    answer(&mut walk, Call::Play(0));
    assert_eq!(refusal(&mut walk, edit(1, 1.0)), 9);
    assert_eq!(walk.held.keys[0], [1.0; 3]);
}

#[test]
fn undo_reaches_128_edits_back() {
    let mut walk = walk(&sheet(true, &[0.0, 500.0]));
    answer(&mut walk, Call::Play(0));
    let many = ROWS + 2;
    for n in 0..many {
        assert_eq!(refusal(&mut walk, edit(1, n as f32 + 1.0)), 0);
    }
    for n in (2..many).rev() {
        assert_eq!(refusal(&mut walk, Call::Undo), 0);
        assert_eq!(walk.held.keys[0][1], n as f32);
    }
    // The first two edits stand and can't be undone.
    assert_eq!(refusal(&mut walk, Call::Undo), 11);
    assert_eq!((walk.held.player.standing, walk.held.keys[0][1]), (2, 2.0));
    for n in 2..many {
        assert_eq!(refusal(&mut walk, Call::Redo), 0);
        assert_eq!(walk.held.keys[0][1], n as f32 + 1.0);
    }
    assert_eq!(refusal(&mut walk, Call::Redo), 11);
}

#[test]
fn an_edit_empties_the_redo_list() {
    let mut walk = walk(&sheet(true, &[0.0, 5.0]));
    answer(&mut walk, Call::Play(0));
    for call in [edit(1, 7.0), edit(1, 8.0), Call::Undo, edit(1, 9.0)] {
        assert_eq!(refusal(&mut walk, call), 0);
    }
    assert_eq!(refusal(&mut walk, Call::Redo), 11);
    let p = &walk.held.player;
    let counts = (p.accepted, p.undone, p.redone, p.standing, p.reach);
    assert_eq!(counts, (3, 1, 0, 2, 2));
}

/// "An artist undid five moves, clicked a key, pressed return, and the redo list was
/// gone."
#[test]
fn return_on_an_unchanged_key() {
    let mut walk = walk(&sheet(true, &[0.0, 5.0]));
    answer(&mut walk, Call::Play(0));
    for frame in 6..11 {
        assert!(!unchanged(&mut walk, edit(1, frame as f32)));
    }
    let (mut player, keys) = (walk.held.player.clone(), walk.held.keys.clone());
    for _ in 0..5 {
        assert_eq!(refusal(&mut walk, Call::Undo), 0);
    }
    let undone = walk.held.player.clone();
    let pressed = Call::Edit {
        track: 0,
        key: 0,
        request: Request::Key {
            frame: -4.0, // held at 0
            value: 127.5,
        },
    };
    assert!(unchanged(&mut walk, pressed));
    assert_eq!(walk.held.player, undone);
    for _ in 0..5 {
        assert_eq!(refusal(&mut walk, Call::Redo), 0);
    }
    (player.undone, player.redone) = (5, 5);
    assert_eq!((&walk.held.player, &walk.held.keys), (&player, &keys));
}

/// "−0 and +0 differ."
#[test]
fn a_zero_of_the_other_sign() {
    let mut walk = walk(&sheet(true, &[0.0]));
    answer(&mut walk, Call::Play(0));
    let slope = |slope| Call::Edit {
        track: 0,
        key: 0,
        request: Request::Slope(slope),
    };
    for (zero, same) in [(0.0, true), (-0.0, false), (-0.0, true), (0.0, false)] {
        assert_eq!(unchanged(&mut walk, slope(zero)), same);
    }
    assert_eq!(walk.held.player.accepted, 2);
}

/// A walk with an edit that stands and one that can be made again, and then a drag of
/// the last key, opened at frame 7; its player and keys before opening.
fn opened() -> (Walk, Player, Arrays) {
    let mut walk = walk(&sheet(true, &[0.0, 5.0]));
    let calls = [Call::Play(0), edit(1, 7.0), edit(1, 8.0), Call::Undo];
    for call in calls {
        assert_eq!(refusal(&mut walk, call), 0);
    }
    let before = (walk.held.player.clone(), walk.held.keys.clone());
    let open = Call::OpenDrag { track: 0, key: 1 };
    assert_eq!(refusal(&mut walk, open), 0);
    (walk, before.0, before.1)
}

fn drag(frame: f32) -> Call {
    Call::Drag { frame, value: 2.0 }
}

/// "Drop leaves one standing edit, the last accepted request, and one journal entry
/// with the key as it was at opening and is now".
#[test]
fn a_dropped_drag_is_one_edit() {
    let (mut walk, before, _) = opened();
    for frame in [9.0, 10.0, 11.0] {
        assert_eq!(refusal(&mut walk, drag(frame)), 0);
        assert_eq!(walk.held.player.standing, before.standing);
    }
    assert_eq!(refusal(&mut walk, Call::DropDrag), 0);
    let p = &walk.held.player;
    let counts = (p.accepted, p.undone, p.redone, p.standing, p.reach, p.redo);
    assert_eq!(counts, (3, 1, 0, 2, 2, 0));
    let entry = p.undo_entry();
    assert_eq!(entry.before, [7.0f32, 1.0, 0.0].map(f32::to_bits));
    assert_eq!(entry.after, [11.0f32, 2.0, 0.0].map(f32::to_bits));
    assert_eq!(refusal(&mut walk, Call::Redo), 11);
    assert_eq!(refusal(&mut walk, Call::Undo), 0);
    assert_eq!(walk.held.keys[0][1], 7.0);
}

/// "with no accepted drag it leaves none and changes no count, reach or redo"
#[test]
fn a_drop_with_no_accepted_drag() {
    let (mut walk, before, keys) = opened();
    assert_eq!(refusal(&mut walk, drag(f32::NAN)), 8);
    assert!(unchanged(&mut walk, Call::DropDrag));
    assert_eq!((&walk.held.player, &walk.held.keys), (&before, &keys));
    assert_eq!(refusal(&mut walk, Call::DropDrag), 15);
}

/// "A drag that drops on its starting bits is unchanged too."
#[test]
fn a_drag_there_and_back() {
    let (mut walk, before, keys) = opened();
    let back = Call::Drag {
        frame: 7.0,
        value: 1.0,
    };
    assert!(!unchanged(&mut walk, drag(9.0)));
    assert!(unchanged(&mut walk, drag(9.0)));
    assert!(!unchanged(&mut walk, back));
    assert!(unchanged(&mut walk, Call::DropDrag));
    assert_eq!((&walk.held.player, &walk.held.keys), (&before, &keys));
    assert_eq!(refusal(&mut walk, Call::Redo), 0);
}

/// "Abandon puts the key back, counts nothing and keeps reach and redo."
#[test]
fn an_abandoned_drag() {
    let (mut walk, before, keys) = opened();
    assert_eq!(refusal(&mut walk, drag(9.0)), 0);
    assert_eq!(refusal(&mut walk, Call::Undo), 15);
    assert_eq!(refusal(&mut walk, Call::AbandonDrag), 0);
    assert_eq!((&walk.held.player, &walk.held.keys), (&before, &keys));
    assert_eq!(refusal(&mut walk, Call::Redo), 0);
    assert_eq!(walk.held.keys[0][1], 8.0);
}

/// A second content, for a pane named child.
fn two_contents() -> Sheet {
    let mut sheet = sheet(true, &[0.0, 0.0]);
    sheet.contents.push(Content {
        name: name("child"),
        ..Content::default()
    });
    sheet.targets[0].key_count = 1;
    sheet.targets.push(Target {
        content: 1,
        first_key: 1,
        ..sheet.targets[0]
    });
    sheet
}

/// "Parent and child alpha 0.5: child 0.25, or 0.5 if the parent's bit 1 is
/// off." Both panes' alpha is overridden to 127.5 / 255.
#[test]
fn the_cascade() {
    for (flags, alpha) in [(VISIBLE | INFLUENCES_ALPHA, 0.25), (VISIBLE, 0.5)] {
        let mut random = Random::new(1);
        let size = books::Size {
            panes: 2,
            materials: 0,
        };
        let mut book = books::book(&mut random, size);
        for (row, pane) in book.panes.iter_mut().enumerate() {
            pane.label = name(["pane", "child"][row]);
            pane.parent = [NO_PARENT, 0][row];
            pane.flags = flags;
        }
        let mut walk = walk_over(&two_contents(), &book);
        answer(&mut walk, Call::Play(0));
        let Told::Cascade { alpha: rows, .. } = answer(&mut walk, Call::Cascade { short: 0 }).told
        else {
            panic!("a cascade tells rows");
        };
        assert_eq!(rows, [0.5f32, alpha].map(f32::to_bits));
    }
}
