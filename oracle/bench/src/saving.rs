//! Saving beside loading; the Rust has neither.

use crate::menus::Menu;
use crate::timing::{Both, Figure, alone, side_by_side};
use dovebolt::Player;
use std::hint::black_box;

pub fn load(menu: &Menu) -> Figure {
    let mut keys = menu.keys.clone();
    alone(&mut || {
        black_box(Player::load_into(&menu.sheet, &mut keys).expect("a load"));
    })
}

pub fn save(menu: &Menu) -> Both {
    let Menu {
        sheet,
        player,
        keys,
        ..
    } = menu;
    let mut out = vec![0; sheet.len()];
    let mut loaded = keys.clone();
    side_by_side(
        &mut || {
            player
                .save_into(sheet, keys, black_box(&mut out))
                .expect("a save")
        },
        &mut || {
            black_box(Player::load_into(sheet, &mut loaded).expect("a load"));
        },
    )
}

/// The same bytes with nothing checked: the rows copied, the keys put behind them.
pub fn plain_writer(menu: &Menu) -> Figure {
    let Menu { sheet, keys, .. } = menu;
    let mut out = vec![0; sheet.len()];
    let figure = alone(&mut || {
        let keys = black_box(keys);
        let count = keys.frames.len();
        let (rows, rest) = out.split_at_mut(sheet.len() - 12 * count);
        rows.copy_from_slice(&sheet[..rows.len()]);
        let (frames, points) = rest.split_at_mut(4 * count);
        for (bytes, frame) in frames.chunks_exact_mut(4).zip(&keys.frames) {
            bytes.copy_from_slice(&frame.to_le_bytes());
        }
        let numbers = keys.values.iter().zip(&keys.slopes);
        for (bytes, (value, slope)) in points.chunks_exact_mut(8).zip(numbers) {
            bytes[..4].copy_from_slice(&value.to_le_bytes());
            bytes[4..].copy_from_slice(&slope.to_le_bytes());
        }
        black_box(&mut out);
    });
    assert!(out == *sheet);
    figure
}
