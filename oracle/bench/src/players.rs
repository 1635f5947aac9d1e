//! The calls that move a player: ours beside the Rust's, or alone where the Rust
//! has no such call.

use crate::menus::{Menu, places};
use crate::timing::{Both, Figure, alone, side_by_side};
use dovebolt::{Edited, Player};
use published::ui::timeline::PendingKeyEdit;
use std::collections::HashSet;
use std::hint::black_box;

/// A tick's seconds and frames a second.
const TICK: (f32, f32) = (0.016, 30.0);

pub fn play(menu: &mut Menu) -> Both {
    let Menu {
        sheet,
        player,
        published,
        tree,
        ..
    } = menu;
    let mut hidden = HashSet::new();
    side_by_side(
        &mut || {
            player.play(sheet, black_box(Some(0))).expect("animation 0");
        },
        &mut || published.play(black_box(Some(0)), tree, &mut hidden),
    )
}

/// Ticks of the player.
pub fn ticks(sheet: &[u8], player: &mut Player) -> impl FnMut() {
    || {
        black_box(player.tick(sheet, TICK.0, TICK.1).expect("a tick"));
    }
}

pub fn tick(menu: &mut Menu) -> Both {
    let Menu {
        sheet,
        player,
        published,
        ..
    } = menu;
    side_by_side(&mut ticks(sheet, player), &mut || {
        drop(black_box(published.tick(TICK.0, TICK.1)))
    })
}

pub fn edit(menu: &mut Menu) -> Both {
    let (track, place, key) = menu.edited_key();
    let Menu {
        sheet,
        player,
        keys,
        published,
        ..
    } = menu;
    let mut asked = PendingKeyEdit {
        track: place,
        key_idx: usize::from(key),
        frame: 0.0,
        value: 0.0,
    };
    let (mut ours_to, mut rust_to) = (places([3.0, 4.0]), places([3.0, 4.0]));
    side_by_side(
        &mut || {
            let (frame, value) = ours_to();
            let answer = player.key_edit(sheet, keys, track, key, frame, value);
            assert_eq!(answer, Ok(Edited::Made));
        },
        &mut || {
            (asked.frame, asked.value) = rust_to();
            published.apply_key_edit(black_box(&asked));
        },
    )
}

/// Return pressed on a key as it is, which the Rust stores again.
pub fn unchanged(menu: &mut Menu) -> Figure {
    let (track, _, key) = menu.edited_key();
    let Menu {
        sheet,
        player,
        keys,
        ..
    } = menu;
    let answer = player.key_edit(sheet, keys, track, key, 0.5, 6.0);
    assert_eq!(answer, Ok(Edited::Made));
    alone(&mut || {
        let answer = player.key_edit(sheet, keys, track, key, 0.5, 6.0);
        assert_eq!(answer, Ok(Edited::Unchanged));
    })
}

/// An undo and a redo in turn, of an edit that is made for it.
pub fn undos(menu: &mut Menu) -> impl FnMut() {
    let (track, _, key) = menu.edited_key();
    let Menu {
        sheet,
        player,
        keys,
        ..
    } = menu;
    let answer = player.key_edit(sheet, keys, track, key, 0.5, 7.0);
    assert_eq!(answer, Ok(Edited::Made));
    || {
        player.undo(sheet, keys).expect("an undo");
        player.redo(sheet, keys).expect("a redo");
    }
}

/// The Rust has neither.
pub fn undo(menu: &mut Menu) -> Figure {
    alone(&mut undos(menu)).each_of(2)
}
