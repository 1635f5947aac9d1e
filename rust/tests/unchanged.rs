//! Edits, drags and drops that leave a key as it is: nothing is counted, and what was undone can still be redone.

mod common;

use common::{KEY, PLACE, TRACK, bits, posed};
use dovebolt::Edited::{Made, Unchanged};
use dovebolt::{Edited, Keys, Player, Refusal};

/// Every field of the player and all keys, a zero's sign too.
fn all(player: &Player, keys: &Keys) -> String {
    format!("{player:?} {keys:?}")
}

/// Animation 0 with an edit to undo, which gave the second key of track 0 (Step) the value 2, and one to redo.
fn edited() -> (Vec<u8>, Player, Keys) {
    let (sheet, mut player, mut keys) = posed(2.0);
    let (s, k) = (&sheet, &mut keys);
    assert_eq!(player.key_edit(s, k, 0, 1, 4.0, 2.0), Ok(Made));
    assert_eq!(player.key_edit(s, k, TRACK, KEY, 6.0, 20.0), Ok(Made));
    player.undo(s, k).unwrap();
    (sheet, player, keys)
}

/// Asks twice. An unchanged request leaves all as it was; one that is made is counted and empties the redo list. The second
/// time the key is as asked for.
fn ask(
    request: &str,
    expected: Edited,
    call: impl Fn(&mut Player, &[u8], &mut Keys) -> Result<Edited, Refusal>,
) {
    let (sheet, mut player, mut keys) = edited();
    let (was, were) = (all(&player, &keys), bits(&keys));
    assert_eq!(
        call(&mut player, &sheet, &mut keys),
        Ok(expected),
        "{request}"
    );
    if expected == Unchanged {
        assert_eq!(all(&player, &keys), was, "{request}");
    } else {
        let p = player.as_raw();
        assert_eq!((p.accepted, p.reach, p.redo), (3, 2, 0), "{request}");
        assert_ne!(bits(&keys), were, "{request}");
    }
    let once = all(&player, &keys);
    let again = call(&mut player, &sheet, &mut keys);
    assert_eq!(again, Ok(Unchanged), "{request}, again");
    assert_eq!(all(&player, &keys), once, "{request}, again");
}

#[test]
fn key_edits() {
    for (track, key, frame, value, expected) in [
        // Step, (0, 0) and (4, 2): the value is rounded, and a zero is +0
        (0, 1, 4.0, 2.0, Unchanged),
        (0, 1, 4.0, 2.4, Unchanged),
        (0, 1, 4.0, 1.6, Unchanged),
        (0, 1, 4.0, 3.0, Made),
        (0, 1, 4.5, 2.4, Made),
        (0, 0, 0.0, -0.0, Unchanged),
        (0, 0, 0.0, -7.0, Unchanged),
        // Constant, 200: the frame stays
        (2, 0, 7.0, 200.0, Unchanged),
        (2, 0, -0.0, 200.0, Unchanged),
        (2, 0, 7.0, 201.0, Made),
        // Hermite, (0, 0, 0) and (8, 16, 0): the frame is held from 0, and to the next key's
        (3, 0, 0.0, 0.0, Unchanged),
        (3, 0, -4.0, 0.0, Unchanged),
        (3, 0, -4.0, 1.0, Made),
        (3, 0, 0.0, -0.0, Made),
        (3, 0, -0.0, 0.0, Made),
        (3, 0, 100.0, 0.0, Made),
        (3, 1, 8.0, 16.0, Unchanged),
        (3, 1, 8.0, 16.0_f32.next_up(), Made),
        (3, 1, 8.0_f32.next_down(), 16.0, Made),
    ] {
        let request = format!("track {track} key {key} to ({frame}, {value})");
        ask(&request, expected, |p, s, k| {
            p.key_edit(s, k, track, key, frame, value)
        });
    }
}

#[test]
fn slope_edits() {
    for (slope, expected) in [(0.0, Unchanged), (-0.0, Made), (0.5, Made)] {
        ask(&format!("slope {slope}"), expected, |p, s, k| {
            p.slope_edit(s, k, TRACK, KEY, slope)
        });
    }
}

/// Five edits are undone, a key is clicked and return pressed: all five come back.
#[test]
fn five_edits_come_back() {
    let (sheet, mut player, mut keys) = posed(2.0);
    let (s, k) = (&sheet, &mut keys);
    for n in 1..=5 {
        let frame = 8.0 - n as f32;
        assert_eq!(player.key_edit(s, k, TRACK, KEY, frame, 20.0), Ok(Made));
    }
    let five = bits(k);
    for _ in 0..5 {
        player.undo(s, k).unwrap();
    }
    let [frame, value] = [k.frames[PLACE], k.values[PLACE]];
    let returned = player.key_edit(s, k, TRACK, KEY, frame, value);
    assert_eq!((returned, player.redoable()), (Ok(Unchanged), 5));
    for _ in 0..5 {
        player.redo(s, k).unwrap();
    }
    assert_eq!(bits(k), five);
    let p = player.as_raw();
    assert_eq!((p.accepted, p.undone, p.redone), (5, 5, 5));
}

/// What is answered depends on the key at the opening for a drop, and on the key as it is now for a drag.
#[test]
fn drags() {
    let (here, there) = ((8.0, 16.0), (6.0, 20.0));
    for (requests, dropped) in [
        (&[][..], Unchanged),
        (&[(here, Unchanged)], Unchanged),
        (&[(there, Made), (here, Made)], Unchanged),
        (&[(there, Made), (there, Unchanged)], Made),
        (&[(there, Made), (here, Made), (there, Made)], Made),
        (&[((8.0, -0.0), Made), ((8.0, 0.0), Made)], Made),
    ] {
        let (sheet, mut player, mut keys) = edited();
        let (s, k) = (&sheet, &mut keys);
        let was = all(&player, k);
        player.open_drag(s, k, TRACK, KEY).unwrap();
        for &((frame, value), expected) in requests {
            assert_eq!(
                player.drag(s, k, frame, value),
                Ok(expected),
                "{requests:?}"
            );
            assert!(player.dragging().unwrap().moved);
        }
        assert_eq!(player.drop_drag(s, k), Ok(dropped), "{requests:?}");
        assert_eq!(player.dragging(), None);
        assert_eq!(all(&player, k) == was, dropped == Unchanged, "{requests:?}");
        assert_eq!(player.redo(s, k).is_ok(), dropped == Unchanged);
    }
}

/// A zero that was dragged to the other sign is an edit.
#[test]
fn a_drop_on_the_other_zero() {
    let (sheet, mut player, mut keys) = edited();
    player.open_drag(&sheet, &keys, TRACK, 0).unwrap();
    assert_eq!(player.drag(&sheet, &mut keys, 0.0, -0.0), Ok(Made));
    assert_eq!(player.drop_drag(&sheet, &keys), Ok(Made));
    assert_eq!((player.reach(), player.redoable()), (2, 0));
    player.undo(&sheet, &mut keys).unwrap();
    assert_eq!(keys.values[PLACE - 1].to_bits(), 0);
}

/// Whether a drag was accepted decides first: a key that was changed by hand stays so, and is no edit.
#[test]
fn a_drop_of_a_key_changed_by_hand() {
    let (sheet, mut player, mut keys) = edited();
    let was = player.clone();
    player.open_drag(&sheet, &keys, TRACK, KEY).unwrap();
    keys.values[PLACE] = 17.0;
    let were = bits(&keys);
    assert_eq!(player.drop_drag(&sheet, &keys), Ok(Unchanged));
    assert_eq!((player, bits(&keys)), (was, were));
}

/// Each request would leave its key as it is, or asks for where the key is.
#[test]
fn refusals_come_first() {
    let (sheet, mut player, mut keys) = edited();
    let (s, k) = (&sheet, &mut keys);
    let was = all(&player, k);
    let not_finite = Err(Refusal::NotFinite);
    assert_eq!(player.key_edit(s, k, 2, 0, f32::NAN, 200.0), not_finite);
    assert_eq!(
        player.key_edit(s, k, 0, 0, f32::NEG_INFINITY, 0.0),
        not_finite
    );
    assert_eq!(player.slope_edit(s, k, 0, 1, 0.0), Err(Refusal::NotHermite));
    assert_eq!(
        player.key_edit(s, k, 4, 1, 60.0, 51.0),
        Err(Refusal::NoSuch)
    );
    assert_eq!(all(&player, k), was);

    player.open_drag(s, k, 2, 0).unwrap();
    let was = all(&player, k);
    let drag = Err(Refusal::DragState);
    assert_eq!(player.key_edit(s, k, TRACK, KEY, 8.0, 16.0), drag);
    assert_eq!(player.slope_edit(s, k, TRACK, KEY, 0.0), drag);
    assert_eq!(player.drag(s, k, f32::NAN, 200.0), not_finite);
    assert_eq!(all(&player, k), was);

    // Held to frame 0, the key would go past the next one.
    player.abandon_drag(s, k).unwrap();
    (k.frames[PLACE - 1], k.frames[PLACE]) = (-5.0, -1.0);
    assert_eq!(
        player.key_edit(s, k, TRACK, 0, -5.0, 0.0),
        Err(Refusal::Overtakes)
    );
}

/// At the highest count an edit is accepted and its player declined from then on; unchanged ones go on.
#[test]
fn at_the_highest_count() {
    const MOST: u64 = 1 << 40;
    let (sheet, player, mut keys) = posed(2.0);
    let mut state = *player.as_raw();
    (state.accepted, state.undone) = (MOST, MOST);
    let mut player = Player::from_raw(state);
    for _ in 0..3 {
        let unchanged = player.key_edit(&sheet, &mut keys, TRACK, KEY, 8.0, 16.0);
        assert_eq!(unchanged, Ok(Unchanged));
    }
    assert_eq!(player.as_raw().accepted, MOST);
    let made = player.key_edit(&sheet, &mut keys, TRACK, KEY, 6.0, 20.0);
    assert_eq!(made, Ok(Made));
    let declined = player.key_edit(&sheet, &mut keys, TRACK, KEY, 6.0, 20.0);
    assert_eq!(declined, Err(Refusal::State));
}
