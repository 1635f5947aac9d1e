//! Drags beside the key edit of the same key, each with a player and keys of its
//! own: the Rust's drag is its key edit.

use crate::menus::{Menu, places};
use crate::timing::{Both, side_by_side};
use dovebolt::{Edited, Keys, Player};

/// One of the drags of a key that is open.
pub fn drag(menu: &mut Menu) -> Both {
    let (track, _, key) = menu.edited_key();
    let mut player = menu.player.clone();
    let opened = player.open_drag(&menu.sheet, &menu.keys, track, key);
    opened.expect("an opening");
    beside_an_edit(
        menu,
        player,
        [5.0, 6.0],
        |player, sheet, keys, (frame, value)| {
            let answer = player.drag(sheet, keys, frame, value);
            assert_eq!(answer, Ok(Edited::Made));
        },
    )
}

/// A key opened, dragged once and dropped.
pub fn whole(menu: &mut Menu) -> Both {
    let (track, _, key) = menu.edited_key();
    let player = menu.player.clone();
    beside_an_edit(
        menu,
        player,
        [8.0, 9.0],
        |player, sheet, keys, (frame, value)| {
            let opened = player.open_drag(sheet, keys, track, key);
            opened.expect("an opening");
            player.drag(sheet, keys, frame, value).expect("a drag");
            assert_eq!(player.drop_drag(sheet, keys), Ok(Edited::Made));
        },
    )
}

fn beside_an_edit(
    menu: &mut Menu,
    mut dragging: Player,
    values: [f32; 2],
    call: impl Fn(&mut Player, &[u8], &mut Keys, (f32, f32)),
) -> Both {
    let (track, _, key) = menu.edited_key();
    let Menu {
        sheet,
        player,
        keys,
        ..
    } = menu;
    let mut dragged = keys.clone();
    let (mut drag_to, mut edit_to) = (places(values), places(values));
    side_by_side(
        &mut || call(&mut dragging, sheet, &mut dragged, drag_to()),
        &mut || {
            let (frame, value) = edit_to();
            let answer = player.key_edit(sheet, keys, track, key, frame, value);
            assert_eq!(answer, Ok(Edited::Made));
        },
    )
}
