//! Each refusal, and that it changes nothing.

use dovebolt::raw::NONE;
use dovebolt::{Keys, Player, Refusal, Vector2f, Vector3f, corners, example, uvs_into};

type Call = fn(&mut Player, &[u8], &mut Keys) -> Result<(), Refusal>;

/// One call for each refusal, on a player that holds animation 0 at frame 2 and has one edit to undo.
const CALLS: [(Refusal, Call); 15] = [
    (Refusal::Sheet, |p, _, _| p.play(b"no sheet", Some(0))),
    (Refusal::Book, |p, s, k| {
        p.read_all(s, b"no book", k).map(drop)
    }),
    (Refusal::KeyLengths, |p, s, k| {
        let mut short = k.clone();
        short.slopes.pop();
        p.undo(s, &mut short)
    }),
    (Refusal::KeyRules, |p, s, k| {
        let mut falling = k.clone();
        falling.frames[6] = falling.frames[5] - 1.0;
        p.undo(s, &mut falling)
    }),
    (Refusal::State, |p, s, _| {
        let mut state = *p.as_raw();
        state.reach = 129;
        Player::from_raw(state).play(s, Some(0))
    }),
    (Refusal::Animation, |p, s, _| p.play(s, Some(2))),
    (Refusal::NoSuch, |p, s, k| {
        p.key_edit(s, k, 4, 0, 1.0, 1.0).map(drop)
    }),
    (Refusal::NotFinite, |p, s, _| {
        p.pose(s, Some(0), f32::INFINITY)
    }),
    (Refusal::Overtakes, |p, s, k| {
        let mut early = k.clone();
        (early.frames[5], early.frames[6]) = (-5.0, -1.0);
        p.key_edit(s, &mut early, 3, 0, -4.0, 0.0).map(drop)
    }),
    (Refusal::NotHermite, |p, s, k| {
        p.slope_edit(s, k, 0, 0, 1.0).map(drop)
    }),
    (Refusal::NothingToReturn, |p, s, k| p.redo(s, k)),
    (Refusal::Angle, |_, _, _| {
        let steep = Vector3f {
            x: 0.0,
            y: -3600.5,
            z: 0.0,
        };
        corners(Vector2f::default(), Vector2f::default(), 0, 0, steep).map(drop)
    }),
    (Refusal::OutputLength, |_, _, _| {
        uvs_into(&[], &[], &mut [0.0; 23])
    }),
    (Refusal::SaveLength, |p, s, k| p.save_into(s, k, &mut [])),
    (Refusal::DragState, |p, s, k| p.abandon_drag(s, k)),
];

#[test]
fn each_is_reached_and_changes_nothing() {
    let sheet = example::sheet();
    let (mut player, mut keys) = Player::load(&sheet).unwrap();
    player.pose(&sheet, Some(0), 2.0).unwrap();
    player.key_edit(&sheet, &mut keys, 3, 1, 6.0, 20.0).unwrap();
    let (was, were) = (player.clone(), keys.clone());
    for (refusal, call) in CALLS {
        assert_eq!(call(&mut player, &sheet, &mut keys), Err(refusal));
        assert_eq!((&player, &keys), (&was, &were), "after {refusal}");
    }
}

#[test]
fn numbers_go_from_1_to_15() {
    let numbers: Vec<u8> = Refusal::ALL.iter().map(|r| r.number()).collect();
    assert_eq!(numbers, (1..=15).collect::<Vec<u8>>());
    for refusal in Refusal::ALL {
        assert_eq!(Refusal::from_number(refusal.number()), Some(refusal));
        assert!(
            refusal
                .to_string()
                .starts_with(&format!("refusal {}: ", refusal.number()))
        );
    }
    assert_eq!(
        (Refusal::from_number(0), Refusal::from_number(16)),
        (None, None)
    );
}

#[test]
fn outputs_of_any_length_are_answered() {
    let (sheet, book) = (example::sheet(), example::book());
    let (player, keys) = Player::load(&sheet).unwrap();
    for length in [0, 23, 25] {
        let mut out = vec![7; length];
        let declined = player.texture_name_into(&sheet, &book, &keys, 0, 0, &mut out);
        assert_eq!(declined, Err(Refusal::OutputLength));
        assert_eq!(
            dovebolt::next_name_into(&sheet, 0, &mut out),
            Err(Refusal::OutputLength)
        );
        assert_eq!(out, vec![7; length]);
    }
    // The refusal of reading the slot comes first.
    for slot in [3, 4, 65_535] {
        assert_eq!(
            player.texture_name_into(&sheet, &book, &keys, 0, slot, &mut []),
            Err(Refusal::NoSuch)
        );
    }
    assert_eq!(
        dovebolt::next_name_into(&sheet, NONE, &mut []),
        Err(Refusal::Animation)
    );
    let declined = player.cascade_into(
        &sheet,
        &book,
        &keys,
        &mut [9; 2],
        &mut [9.0; 2],
        &mut [9.0; 3],
    );
    assert_eq!(declined, Err(Refusal::OutputLength));
    let declined = player.read_all_into(&sheet, &book, &keys, &mut [9; 86], &mut [9.0; 85]);
    assert_eq!(declined, Err(Refusal::OutputLength));
}

/// Saving into buffers of these lengths is declined, and leaves them as they were.
fn declined(player: &Player, sheet: &[u8], keys: &Keys, lengths: &[usize], expected: Refusal) {
    for &length in lengths {
        let mut out = vec![7; length];
        assert_eq!(player.save_into(sheet, keys, &mut out), Err(expected));
        assert_eq!(out, vec![7; length], "after {expected}");
    }
}

#[test]
fn saving_looks_at_the_buffer_last() {
    let sheet = example::sheet();
    let (player, keys) = Player::load(&sheet).unwrap();
    let others = [0, sheet.len() - 1, sheet.len() + 1];
    declined(&player, &sheet, &keys, &others, Refusal::SaveLength);

    let any = [0, sheet.len() - 1, sheet.len(), sheet.len() + 1];
    let mut state = *player.as_raw();
    state.frame = f32::NAN;
    let broken = Player::from_raw(state);
    declined(&broken, &sheet, &keys, &any, Refusal::State);
    let mut falling = keys.clone();
    falling.frames[6] = -1.0;
    declined(&broken, &sheet, &falling, &any, Refusal::KeyRules);
    falling.values.push(0.0);
    declined(&broken, &sheet, &falling, &any, Refusal::KeyLengths);
    let short = &sheet[1..];
    declined(&broken, short, &falling, &any, Refusal::Sheet);
}

/// The calls that row 15 is about, and whether it declines them while a drag is open or while none is.
const BY_DRAG: [(&str, bool, Call); 8] = [
    ("key edit", true, |p, s, k| {
        p.key_edit(s, k, 3, 1, 5.0, 9.0).map(drop)
    }),
    ("slope edit", true, |p, s, k| {
        p.slope_edit(s, k, 3, 1, 0.5).map(drop)
    }),
    ("undo", true, |p, s, k| p.undo(s, k)),
    ("redo", true, |p, s, k| p.redo(s, k)),
    ("open", true, |p, s, k| p.open_drag(s, k, 3, 1)),
    ("drag", false, |p, s, k| p.drag(s, k, 5.0, 9.0).map(drop)),
    ("drop", false, |p, s, k| p.drop_drag(s, k).map(drop)),
    ("abandon", false, |p, s, k| p.abandon_drag(s, k)),
];

/// Animation 0 with an edit to undo and one to redo, and a drag of the edited key if `open`.
fn with_drag(open: bool) -> (Vec<u8>, Player, Keys) {
    let sheet = example::sheet();
    let (mut player, mut keys) = Player::load(&sheet).unwrap();
    player.pose(&sheet, Some(0), 2.0).unwrap();
    player.key_edit(&sheet, &mut keys, 3, 1, 6.0, 20.0).unwrap();
    player.key_edit(&sheet, &mut keys, 0, 1, 3.0, 2.0).unwrap();
    player.undo(&sheet, &mut keys).unwrap();
    if open {
        player.open_drag(&sheet, &keys, 3, 1).unwrap();
        player.drag(&sheet, &mut keys, 7.0, 25.0).unwrap();
    }
    (sheet, player, keys)
}

/// Each is declined in one of the two states and changes nothing there; in the other it is accepted and changes the player.
#[test]
fn a_drag_is_open_or_none_is() {
    for open in [true, false] {
        let (sheet, player, keys) = with_drag(open);
        for (name, when, call) in BY_DRAG {
            let (mut after, mut keys_after) = (player.clone(), keys.clone());
            let answer = call(&mut after, &sheet, &mut keys_after);
            if when == open {
                assert_eq!(answer, Err(Refusal::DragState), "{name}, open {open}");
                assert_eq!((&after, &keys_after), (&player, &keys), "{name}");
            } else {
                assert_eq!(answer, Ok(()), "{name}, open {open}");
                assert_ne!((&after, &keys_after), (&player, &keys), "{name}");
            }
        }
    }
}

/// 15 comes after 6 and before all others of its calls. An open drag hides what an undo or redo would find.
#[test]
fn the_place_of_15() {
    let (sheet, mut player, mut keys) = with_drag(true);
    let (s, k) = (&sheet, &mut keys);
    let drag = Some(Refusal::DragState);
    // The dragged key is not as its edit left it: row 5 of an undo, were no drag open.
    assert_eq!(player.undo(s, k).err(), drag);
    assert_eq!(player.open_drag(s, k, 3, 2).err(), drag);
    assert_eq!(player.open_drag(s, k, 4, 0).err(), drag);
    assert_eq!(player.key_edit(s, k, 4, 0, 1.0, 1.0).err(), drag);
    assert_eq!(player.key_edit(s, k, 3, 1, f32::NAN, 1.0).err(), drag);
    assert_eq!(player.slope_edit(s, k, 4, 0, 1.0).err(), drag);
    assert_eq!(player.slope_edit(s, k, 0, 0, f32::NAN).err(), drag);
    assert_eq!(player.slope_edit(s, k, 0, 0, 1.0).err(), drag);
    let none = Some(Refusal::Animation);
    player.pose(s, None, 0.0).unwrap();
    assert_eq!(player.open_drag(s, k, 3, 1).err(), none);
    assert_eq!(player.key_edit(s, k, 3, 1, 5.0, 9.0).err(), none);
    assert_eq!(player.slope_edit(s, k, 3, 1, 0.5).err(), none);

    // None is open and nothing active; 6 is no row of the three.
    let (mut player, mut keys) = Player::load(s).unwrap();
    let k = &mut keys;
    assert_eq!(player.open_drag(s, k, 3, 1).err(), none);
    assert_eq!(player.drag(s, k, f32::NAN, 0.0).err(), drag);
    assert_eq!(player.drop_drag(s, k).err(), drag);
    assert_eq!(player.abandon_drag(s, k).err(), drag);

    // Nothing to undo or to redo, and a key or a track that the active animation doesn't have.
    player.pose(s, Some(0), 0.0).unwrap();
    assert_eq!(player.open_drag(s, k, 3, 2), Err(Refusal::NoSuch));
    assert_eq!(player.open_drag(s, k, 4, 0), Err(Refusal::NoSuch));
    assert_eq!(player.open_drag(s, k, 5, 0), Err(Refusal::NoSuch));
    player.open_drag(s, k, 3, 1).unwrap();
    assert_eq!(player.undo(s, k).err(), drag);
    assert_eq!(player.redo(s, k).err(), drag);
}
