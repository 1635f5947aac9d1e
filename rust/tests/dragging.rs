//! A drag: a key that is moved any number of times and leaves one edit, or none.

mod common;

use common::{KEY, PLACE, TRACK, bits, posed};
use dovebolt::raw::Drag;
use dovebolt::{Edited, Keys, MaterialChannel, PaneChannel, Player, Reading, Refusal, example};

/// Animation 0's frame in these tests: after its Step curves' second keys and before its Hermite curve's.
const FRAME: f32 = 6.0;

fn key_at(keys: &Keys, place: usize) -> [f32; 3] {
    [keys.frames[place], keys.values[place], keys.slopes[place]]
}

/// Every field of the player, a zero's sign too.
fn state(player: &Player) -> String {
    format!("{:?}", player.as_raw())
}

/// No drag is open, and nothing is left of the last one.
fn assert_closed(player: &Player) {
    let drag = player.as_raw().drag;
    assert_eq!(format!("{drag:?}"), format!("{:?}", Drag::default()));
    assert_eq!(player.dragging(), None);
}

/// Two edits of the dragged key and one of another, the last of them undone.
fn edited(sheet: &[u8], player: &mut Player, keys: &mut Keys) {
    player.slope_edit(sheet, keys, TRACK, KEY, 0.5).unwrap();
    player.key_edit(sheet, keys, TRACK, KEY, 7.0, -0.0).unwrap();
    player.key_edit(sheet, keys, 0, 1, 3.0, 5.0).unwrap();
    player.undo(sheet, keys).unwrap();
}

#[test]
fn forty_drags_are_one_edit() {
    let (sheet, mut player, mut keys) = posed(FRAME);
    player
        .slope_edit(&sheet, &mut keys, TRACK, KEY, 0.5)
        .unwrap();
    let opening = bits(&keys);
    player.open_drag(&sheet, &keys, TRACK, KEY).unwrap();
    let opened = *player.as_raw();
    for n in 1..=40 {
        let (frame, value) = (n as f32 * 0.125, -(n as f32));
        player.drag(&sheet, &mut keys, frame, value).unwrap();
        assert_eq!(key_at(&keys, PLACE), [frame, value, 0.5]);
        let mut expected = opened;
        expected.drag.moved = true;
        assert_eq!(*player.as_raw(), expected, "after drag {n}");
    }
    assert_eq!(player.drop_drag(&sheet, &keys), Ok(Edited::Made));
    assert_closed(&player);
    assert_eq!(key_at(&keys, PLACE), [5.0, -40.0, 0.5]);
    let dropped = bits(&keys);

    let mut expected = opened;
    (expected.reach, expected.accepted, expected.standing) = (2, 2, 2);
    expected.drag = Drag::default();
    let journal = &mut expected.journal;
    (journal.track[1], journal.key[1]) = (TRACK, KEY);
    (journal.before_frame[1], journal.after_frame[1]) = (8.0, 5.0);
    (journal.before_value[1], journal.after_value[1]) = (16.0, -40.0);
    (journal.before_slope[1], journal.after_slope[1]) = (0.5, 0.5);
    assert_eq!(*player.as_raw(), expected);

    player.undo(&sheet, &mut keys).unwrap();
    assert_eq!(bits(&keys), opening);
    assert_eq!((player.reach(), player.redoable()), (1, 1));
    player.redo(&sheet, &mut keys).unwrap();
    assert_eq!(bits(&keys), dropped);
}

/// Whatever came before it, a drag gives the key that one edit would have made of the opening key, and a drop after it
/// the answer and the player of this edit. Every key of the sheet, with frames that are held to a neighbour, Step values
/// that are rounded, Constant frames that stay, and a return to the opening key.
#[test]
fn a_drop_is_the_edit_of_the_last_drag() {
    let requests = [
        (3.0, 2.0),
        (-4.0, 2.5),
        (1.0e9, 70_000.0),
        (-0.0, -0.0),
        (3.995, -1.0),
        (5.5, f32::MAX),
    ];
    for (track, places) in [(0, 0..2), (1, 2..4), (2, 4..5), (3, 5..7), (4, 7..9)] {
        for (key, place) in (0..).zip(places) {
            let (sheet, mut player, mut keys) = posed(FRAME);
            edited(&sheet, &mut player, &mut keys);
            player
                .pose(&sheet, Some(u16::from(track == 4)), 1.0)
                .unwrap();
            let (was, were) = (player.clone(), keys.clone());
            player.open_drag(&sheet, &keys, track, key).unwrap();
            let back = (were.frames[place], were.values[place]);
            for (frame, value) in requests.into_iter().chain([back]) {
                let request = format!("track {track} key {key} to ({frame}, {value})");
                let (mut other, mut other_keys) = (was.clone(), were.clone());
                let answer = other
                    .key_edit(&sheet, &mut other_keys, track, key, frame, value)
                    .unwrap();
                player.drag(&sheet, &mut keys, frame, value).unwrap();
                assert_eq!(bits(&keys), bits(&other_keys), "{request}");
                let mut dropped = player.clone();
                assert_eq!(dropped.drop_drag(&sheet, &keys), Ok(answer), "{request}");
                assert_eq!(state(&dropped), state(&other), "{request}");
            }
        }
    }
}

#[test]
fn an_abandoned_drag_leaves_nothing() {
    let (sheet, mut player, mut keys) = posed(FRAME);
    edited(&sheet, &mut player, &mut keys);
    let (was, were) = (state(&player), bits(&keys));
    for drags in [0, 1, 40] {
        player.open_drag(&sheet, &keys, TRACK, KEY).unwrap();
        for n in 0..drags {
            player.drag(&sheet, &mut keys, 6.0, n as f32).unwrap();
            assert_ne!(bits(&keys), were);
        }
        player.abandon_drag(&sheet, &mut keys).unwrap();
        assert_closed(&player);
        assert_eq!((state(&player), bits(&keys)), (was.clone(), were.clone()));
    }
    player.redo(&sheet, &mut keys).unwrap();
    assert_eq!((player.reach(), player.redoable()), (3, 0));
}

/// All 128 edits are undone. A drag that is abandoned keeps every redo, and so does one that is dropped at once.
#[test]
fn a_full_redo_list_is_kept() {
    let (sheet, mut player, mut keys) = posed(FRAME);
    for n in 1..=128 {
        player
            .key_edit(&sheet, &mut keys, TRACK, KEY, 6.0, n as f32)
            .unwrap();
    }
    let all = bits(&keys);
    while player.reach() > 0 {
        player.undo(&sheet, &mut keys).unwrap();
    }
    let was = state(&player);
    player.open_drag(&sheet, &keys, TRACK, KEY).unwrap();
    player.drag(&sheet, &mut keys, 1.0, 1.0).unwrap();
    player.abandon_drag(&sheet, &mut keys).unwrap();
    assert_eq!(state(&player), was);

    player.open_drag(&sheet, &keys, TRACK, KEY).unwrap();
    assert_eq!(player.drop_drag(&sheet, &keys), Ok(Edited::Unchanged));
    assert_closed(&player);
    assert_eq!(state(&player), was);

    for _ in 0..128 {
        player.redo(&sheet, &mut keys).unwrap();
    }
    assert_eq!(bits(&keys), all);
    assert_eq!((player.reach(), player.redoable()), (128, 0));
}

/// A drop at the longest reach takes the place of the oldest edit, as an edit does, and empties the redo list.
#[test]
fn a_drop_with_a_full_journal() {
    let (sheet, mut player, mut keys) = posed(FRAME);
    for n in 0..128 {
        player
            .key_edit(&sheet, &mut keys, TRACK, KEY, 6.0, n as f32)
            .unwrap();
    }
    player.open_drag(&sheet, &keys, TRACK, KEY).unwrap();
    player.drag(&sheet, &mut keys, 5.0, 500.0).unwrap();
    player.drop_drag(&sheet, &keys).unwrap();
    let p = player.as_raw();
    assert_eq!(
        (p.reach, p.redo, p.accepted, p.standing),
        (128, 0, 129, 129)
    );
    assert_eq!(
        (p.journal.before_value[0], p.journal.after_value[0]),
        (127.0, 500.0)
    );
    assert_eq!(
        (p.journal.before_value[1], p.journal.after_value[1]),
        (0.0, 1.0)
    );

    player.undo(&sheet, &mut keys).unwrap();
    player.undo(&sheet, &mut keys).unwrap();
    assert_eq!(
        (key_at(&keys, PLACE), player.redoable()),
        ([6.0, 126.0, 0.0], 2)
    );
    player.open_drag(&sheet, &keys, TRACK, KEY).unwrap();
    player.drag(&sheet, &mut keys, 6.0, 99.0).unwrap();
    assert_eq!(player.redoable(), 2);
    player.drop_drag(&sheet, &keys).unwrap();
    assert_eq!((player.reach(), player.redoable()), (127, 0));
}

/// A drag that is declined is as if it was never asked for: the drop is the edit of the last accepted one.
#[test]
fn declined_drags_do_not_count() {
    let (sheet, mut player, mut keys) = posed(FRAME);
    player.open_drag(&sheet, &keys, TRACK, KEY).unwrap();
    player.drag(&sheet, &mut keys, 6.0, 20.0).unwrap();
    let (was, were) = (state(&player), bits(&keys));
    for (frame, value) in [(f32::INFINITY, 9.0), (5.0, f32::NAN)] {
        let declined = player.drag(&sheet, &mut keys, frame, value);
        assert_eq!(declined, Err(Refusal::NotFinite));
        assert_eq!((state(&player), bits(&keys)), (was.clone(), were.clone()));
    }
    player.drop_drag(&sheet, &keys).unwrap();
    let p = player.as_raw();
    assert_eq!((p.reach, p.journal.after_value[0]), (1, 20.0));
    player.undo(&sheet, &mut keys).unwrap();

    // Key 0 can't go below frame 0, which is past its next key: each drag is declined, and so no edit is left.
    (keys.frames[5], keys.frames[6]) = (-5.0, -1.0);
    let (was, were) = (state(&player), bits(&keys));
    player.open_drag(&sheet, &keys, TRACK, 0).unwrap();
    for frame in [-4.0, 0.0, 4.0] {
        let declined = player.drag(&sheet, &mut keys, frame, 9.0);
        assert_eq!(declined, Err(Refusal::Overtakes));
        assert!(!player.dragging().unwrap().moved);
    }
    assert_eq!(player.drop_drag(&sheet, &keys), Ok(Edited::Unchanged));
    assert_eq!((state(&player), bits(&keys)), (was, were));
}

/// A reading of animation 0 at frame 6, as a number.
type Reads = fn(&Player, &[u8], &[u8], &Keys) -> f32;

/// A key, the frame and value that it is dragged to, and a reading before and after.
struct Seen(u16, u16, [f32; 2], [f32; 2], Reads);

/// All three kinds of curve, and each reading that the sheet's curves reach.
const SEEN: [Seen; 6] = [
    Seen(0, 1, [4.0, 0.0], [1.0, 0.0], |p, s, b, k| {
        f32::from(p.cascade(s, b, k).unwrap()[1].visible)
    }),
    Seen(1, 1, [7.0, 1.0], [1.0, 0.0], |p, s, b, k| {
        match p.read_material(s, b, k, 0, MaterialChannel::Texture0) {
            Ok(Reading::Row(row)) => f32::from(row),
            other => panic!("{other:?}"),
        }
    }),
    Seen(1, 1, [4.0, 0.0], [5.0, 3.0], |p, s, b, k| {
        // "night" or "day"
        p.texture_name(s, b, k, 0, 0).unwrap().bytes().len() as f32
    }),
    Seen(2, 0, [7.0, 99.6], [200.0, 100.0], |p, s, b, k| {
        let place = MaterialChannel::BlackRed.place(b, 0);
        p.read_all(s, b, k).unwrap().get(place).unwrap()
    }),
    Seen(3, 1, [2.0, -7.0], [13.5, -7.0], |p, s, b, k| {
        match p.read_pane(s, b, k, 1, PaneChannel::TranslateX) {
            Ok(Reading::Number(x)) => x,
            other => panic!("{other:?}"),
        }
    }),
    Seen(3, 1, [8.0, 8.0], [13.5, 6.75], |p, s, b, k| {
        p.resolve_pane(s, b, k, 1).unwrap().transform.translation.x
    }),
];

#[test]
fn readings_see_the_key_where_it_is() {
    let book = example::book();
    for Seen(track, key, [frame, value], [before, after], reads) in SEEN {
        let (sheet, mut player, mut keys) = posed(FRAME);
        player.open_drag(&sheet, &keys, track, key).unwrap();
        assert_eq!(reads(&player, &sheet, &book, &keys), before);
        player.drag(&sheet, &mut keys, frame, value).unwrap();
        assert_eq!(reads(&player, &sheet, &book, &keys), after);
        player.abandon_drag(&sheet, &mut keys).unwrap();
        assert_eq!(reads(&player, &sheet, &book, &keys), before);
    }
}

/// A save of an open drag has the dragged key in it, though no edit stands.
#[test]
fn a_save_has_the_dragged_key() {
    let (sheet, mut player, mut keys) = posed(FRAME);
    player.open_drag(&sheet, &keys, TRACK, KEY).unwrap();
    assert_eq!(player.save(&sheet, &keys).unwrap(), sheet);
    player.drag(&sheet, &mut keys, 6.5, -20.25).unwrap();
    let saved = player.save(&sheet, &keys).unwrap();
    let (again, loaded) = Player::load(&saved).unwrap();
    assert_eq!(key_at(&loaded, PLACE), [6.5, -20.25, 0.0]);
    assert_eq!(bits(&loaded), bits(&keys));
    assert_closed(&again);
    assert_eq!(player.standing(), 0);

    player.abandon_drag(&sheet, &mut keys).unwrap();
    assert_eq!(player.save(&sheet, &keys).unwrap(), sheet);
}

/// The key is opened in animation 0; play, tick and pose move on to animation 1 and to none, and the drag stays with it.
#[test]
fn playing_goes_on() {
    let (sheet, mut player, mut keys) = posed(FRAME);
    player.open_drag(&sheet, &keys, TRACK, KEY).unwrap();
    player.play(&sheet, Some(1)).unwrap();
    player.drag(&sheet, &mut keys, 6.0, 20.0).unwrap();
    player.tick(&sheet, 0.5, 8.0).unwrap();
    player.drag(&sheet, &mut keys, 5.0, 21.0).unwrap();
    assert_eq!(key_at(&keys, PLACE), [5.0, 21.0, 0.0]);
    assert_eq!((player.selection(), player.frame()), (Some(1), 4.0));
    assert!(player.playing() && player.preview());

    player.pose(&sheet, None, 0.0).unwrap();
    player.drag(&sheet, &mut keys, 4.0, 22.0).unwrap();
    assert_eq!(key_at(&keys, PLACE), [4.0, 22.0, 0.0]);
    let drag = player.dragging().unwrap();
    assert_eq!((drag.track, drag.key, drag.start.frame), (TRACK, KEY, 8.0));

    let mut abandoned = (player.clone(), keys.clone());
    abandoned.0.abandon_drag(&sheet, &mut abandoned.1).unwrap();
    assert_eq!(bits(&abandoned.1), bits(&Player::load(&sheet).unwrap().1));

    player.drop_drag(&sheet, &keys).unwrap();
    assert_eq!((player.selection(), player.reach()), (None, 1));
    player.undo(&sheet, &mut keys).unwrap();
    assert_eq!(player.save(&sheet, &keys).unwrap(), sheet);
}
