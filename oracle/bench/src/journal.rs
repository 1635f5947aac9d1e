//! Calls of a player whose journal is empty, and of one whose journal is full.

use crate::menus::{Menu, NAMED, places};
use crate::page::Page;
use crate::players::{ticks, undos};
use crate::readings::checks_of;
use crate::timing::{Both, side_by_side};
use dovebolt::Edited;
use dovebolt::raw::ROWS;
use std::hint::black_box;

pub fn table(page: Page) {
    page.head(
        "the journal, empty and full",
        &["menu", "what", "empty, µs", "full, µs", "full to empty"],
    );
    for (name, size, parts) in NAMED {
        let [mut empty, mut full] = [(); 2].map(|()| Menu::new(size, parts));
        fill(&mut full);
        let row = |what: &str, both: Both| {
            let [empty, full] = [both.beside, both.ours].map(|figure| page.cell(figure));
            let ratio = page.ratio(both.ratio);
            page.row(&[name.into(), what.into(), empty, full, ratio]);
        };
        row("checks of a reading", checks(&empty, &full));
        row("tick", tick(&mut empty, &mut full));
        row("key edit of a copied player", edit(&empty, &full));
        row("undo or redo of one more edit", undo(&mut empty, &mut full));
    }
}

/// Edits of the last key of each track in turn until the journal is full.
fn fill(menu: &mut Menu) {
    let tracks: Vec<(u16, u16)> = menu
        .targets()
        .filter(|(_, target)| target.key_count > 0)
        .map(|(number, target)| (number, target.key_count - 1))
        .collect();
    let Menu {
        sheet,
        player,
        keys,
        ..
    } = menu;
    for (number, &(track, key)) in tracks.iter().cycle().enumerate() {
        if player.standing() == ROWS as u64 {
            return;
        }
        let answer = player.key_edit(sheet, keys, track, key, 0.25, number as f32);
        answer.expect("an edit");
    }
}

fn checks(empty: &Menu, full: &Menu) -> Both {
    side_by_side(&mut checks_of(full), &mut checks_of(empty))
}

fn tick(empty: &mut Menu, full: &mut Menu) -> Both {
    side_by_side(
        &mut ticks(&full.sheet, &mut full.player),
        &mut ticks(&empty.sheet, &mut empty.player),
    )
}

fn edit(empty: &Menu, full: &Menu) -> Both {
    side_by_side(&mut edits(full), &mut edits(empty))
}

/// Each edit is of a copy of the player, since an edit leaves no journal empty.
fn edits(menu: &Menu) -> impl FnMut() {
    let (track, _, key) = menu.edited_key();
    let mut keys = menu.keys.clone();
    let mut to = places([3.0, 4.0]);
    move || {
        let mut player = menu.player.clone();
        let (frame, value) = to();
        let answer = player.key_edit(&menu.sheet, &mut keys, track, key, frame, value);
        assert_eq!(answer, Ok(Edited::Made));
        black_box(&player);
    }
}

/// Both make an edit first, since an empty journal has none to undo.
fn undo(empty: &mut Menu, full: &mut Menu) -> Both {
    side_by_side(&mut undos(full), &mut undos(empty)).each_of(2)
}

#[cfg(test)]
mod tests {
    use super::*;

    #[test]
    fn a_filled_journal_has_128_edits_to_undo() {
        for (name, size, parts) in NAMED {
            let mut menu = Menu::new(size, parts);
            assert_eq!(
                (menu.player.reach(), menu.player.standing()),
                (0, 0),
                "{name}"
            );
            fill(&mut menu);
            assert_eq!(
                (menu.player.reach(), menu.player.standing()),
                (128, 128),
                "{name}"
            );
        }
    }
}
