//! Row 5 of an open drag, on players and keys that were changed by hand: the row that it names, and its starting key.

use dovebolt::raw::Drag;
use dovebolt::{Keys, MaterialChannel, PaneChannel, Player, Refusal, example};

type Call = fn(&mut Player, &[u8], &[u8], &mut Keys) -> Result<(), Refusal>;

/// Calls that take a player and no keys.
const WITHOUT_KEYS: [(&str, Call); 3] = [
    ("play", |p, s, _, _| p.play(s, Some(1))),
    ("pose", |p, s, _, _| p.pose(s, Some(0), 1.0)),
    ("tick", |p, s, _, _| p.tick(s, 0.5, 8.0).map(drop)),
];

/// Calls that take a player and keys. Each has a mistake that a later row would decline, where there is one.
const WITH_KEYS: [(&str, Call); 16] = [
    ("key edit", |p, s, _, k| {
        p.key_edit(s, k, 9, 9, f32::NAN, 0.0).map(drop)
    }),
    ("slope edit", |p, s, _, k| {
        p.slope_edit(s, k, 9, 9, f32::NAN).map(drop)
    }),
    ("undo", |p, s, _, k| p.undo(s, k)),
    ("redo", |p, s, _, k| p.redo(s, k)),
    ("open", |p, s, _, k| p.open_drag(s, k, 9, 9)),
    ("drag", |p, s, _, k| p.drag(s, k, f32::NAN, 0.0).map(drop)),
    ("drop", |p, s, _, k| p.drop_drag(s, k).map(drop)),
    ("abandon", |p, s, _, k| p.abandon_drag(s, k)),
    ("save", |p, s, _, k| p.save_into(s, k, &mut [])),
    ("pane", |p, s, b, k| {
        p.read_pane(s, b, k, 9, PaneChannel::Alpha).map(drop)
    }),
    ("material", |p, s, b, k| {
        p.read_material(s, b, k, 9, MaterialChannel::Texture0)
            .map(drop)
    }),
    ("whole", |p, s, b, k| {
        p.read_all_into(s, b, k, &mut [], &mut [])
    }),
    ("resolved pane", |p, s, b, k| {
        p.resolve_pane(s, b, k, 9).map(drop)
    }),
    ("resolved SRT", |p, s, b, k| {
        p.resolve_srt(s, b, k, 9, 9).map(drop)
    }),
    ("texture name", |p, s, b, k| {
        p.texture_name_into(s, b, k, 9, 9, &mut [])
    }),
    ("cascade", |p, s, b, k| {
        p.cascade_into(s, b, k, &mut [], &mut [], &mut [])
    }),
];

/// A player with nothing active and this drag, and the sheet's keys.
fn with(drag: Drag) -> (Vec<u8>, Player, Keys) {
    let sheet = example::sheet();
    let (player, keys) = Player::load(&sheet).unwrap();
    let mut state = *player.as_raw();
    state.drag = drag;
    (sheet, Player::from_raw(state), keys)
}

fn drag(track: u16, key: u16, [start_frame, start_value, start_slope]: [f32; 3]) -> Drag {
    Drag {
        open: true,
        moved: true,
        track,
        key,
        start_frame,
        start_value,
        start_slope,
    }
}

/// What a call answers, on copies.
fn answer(call: Call, player: &Player, sheet: &[u8], keys: &Keys) -> Result<(), Refusal> {
    call(
        &mut player.clone(),
        sheet,
        &example::book(),
        &mut keys.clone(),
    )
}

/// Whether the calls that take keys are declined by 5, and so before all that they would be declined by next.
fn assert_declined(player: &Player, sheet: &[u8], keys: &Keys, expected: bool) {
    for (name, call) in WITH_KEYS {
        let declined = answer(call, player, sheet, keys) == Err(Refusal::State);
        assert_eq!(declined, expected, "{name}, {:?}", player.as_raw().drag);
    }
}

/// The sheet has tracks 0 to 4, of 2, 2, 1, 2 and 2 keys.
#[test]
fn a_row_out_of_range() {
    for (track, key) in [(5, 0), (65_535, 0), (0, 2), (2, 1), (4, 2), (3, 65_535)] {
        let (sheet, player, keys) = with(drag(track, key, [0.0; 3]));
        assert_declined(&player, &sheet, &keys, true);
        for (name, call) in WITHOUT_KEYS {
            let declined = answer(call, &player, &sheet, &keys);
            assert_eq!(
                declined,
                Err(Refusal::State),
                "{name}, track {track} key {key}"
            );
        }
    }
    for (track, key) in [(0, 0), (2, 0), (4, 1)] {
        let (sheet, player, _) = with(drag(track, key, [f32::NAN; 3]));
        for (name, call) in WITHOUT_KEYS {
            let accepted = answer(call, &player, &sheet, &Keys::default());
            assert_eq!(accepted, Ok(()), "{name}, track {track} key {key}");
        }
    }
}

/// Calls that take no keys look at none, so only those that do decline a starting key that can't be put back.
#[test]
fn a_starting_key_that_does_not_fit() {
    const LEAST: f32 = f32::from_bits(1);
    for (track, key, start, fits) in [
        // Hermite, frames 0 and 8
        (3, 1, [f32::NAN, 0.0, 0.0], false),
        (3, 1, [8.0, f32::INFINITY, 0.0], false),
        (3, 1, [8.0, 0.0, f32::NEG_INFINITY], false),
        (3, 1, [-LEAST, 0.0, 0.0], false),
        (3, 1, [-0.0, f32::MAX, -0.0], true),
        (3, 1, [f32::MAX, f32::MIN, f32::MAX], true),
        (3, 0, [8.5, 0.0, 0.0], false),
        (3, 0, [8.0, 0.0, 0.0], true),
        (3, 0, [-9.0, 0.0, 0.0], true),
        // Step, frames 0 and 4
        (0, 1, [3.0, 65_535.0, 0.0], true),
        (0, 1, [3.0, 65_536.0, 0.0], false),
        (0, 1, [3.0, 0.5, 0.0], false),
        (0, 1, [3.0, -0.0, 0.0], false),
        (0, 1, [3.0, 1.0, -0.0], false),
        (0, 1, [-1.0, 1.0, 0.0], false),
        (0, 0, [4.5, 1.0, 0.0], false),
        (0, 0, [4.0, 1.0, 0.0], true),
        // Constant
        (2, 0, [0.0, -1.5, 0.0], true),
        (2, 0, [-0.0, 1.0, 0.0], false),
        (2, 0, [1.0, 1.0, 0.0], false),
        (2, 0, [0.0, 1.0, LEAST], false),
    ] {
        let (sheet, player, keys) = with(drag(track, key, start));
        assert_declined(&player, &sheet, &keys, !fits);
        for (name, call) in WITHOUT_KEYS {
            assert_eq!(answer(call, &player, &sheet, &keys), Ok(()), "{name}");
        }
    }
}

/// The starting key is held against the keys that are lent now. The dragged key itself has made way for it, so that where
/// it is does not matter.
#[test]
fn a_neighbour_that_has_moved() {
    let (sheet, player, mut keys) = with(drag(3, 1, [8.0, 16.0, 0.0]));
    (keys.frames[5], keys.frames[6]) = (8.0, 10.0);
    assert_declined(&player, &sheet, &keys, false);
    keys.frames[5] = 8.5;
    assert_declined(&player, &sheet, &keys, true);
    // Rows 3 and 4 come before it.
    keys.frames[6] = 8.0;
    let drop_drag: Call = |p, s, _, k| p.drop_drag(s, k).map(drop);
    let rules = answer(drop_drag, &player, &sheet, &keys);
    assert_eq!(rules, Err(Refusal::KeyRules));
    keys.slopes.pop();
    let lengths = answer(drop_drag, &player, &sheet, &keys);
    assert_eq!(lengths, Err(Refusal::KeyLengths));
}

/// Nothing of a drag that is not open is looked at, and an opening fills every field.
#[test]
fn a_closed_drag_is_not_looked_at() {
    let left = Drag {
        open: false,
        ..drag(65_535, 65_535, [f32::NAN; 3])
    };
    let (sheet, mut player, mut keys) = with(left);
    assert_declined(&player, &sheet, &keys, false);
    assert_eq!(player.dragging(), None);
    assert_eq!(player.drop_drag(&sheet, &keys), Err(Refusal::DragState));
    player.pose(&sheet, Some(0), 1.0).unwrap();
    player.key_edit(&sheet, &mut keys, 3, 1, 6.0, 20.0).unwrap();
    player.undo(&sheet, &mut keys).unwrap();
    player.open_drag(&sheet, &keys, 3, 1).unwrap();
    let opened = Drag {
        moved: false,
        ..drag(3, 1, [8.0, 16.0, 0.0])
    };
    assert_eq!(player.as_raw().drag, opened);
}
