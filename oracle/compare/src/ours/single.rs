//! One channel by its number, through the exports: the package `dovebolt` takes a
//! channel by its name, and so none that there is not.

use cases::calls::Call;
use cases::calls::held::Held;
use dovebolt::{Keys, raw};

pub fn read(call: &Call, held: &Held, player: raw::Player, keys: &Keys) -> raw::ReadOne {
    let [s, b] = [&held.sheet_bytes, &held.book.bytes].map(|bytes| (bytes.as_ptr(), bytes.len()));
    let [f, v, m] =
        [&keys.frames, &keys.values, &keys.slopes].map(|array| (array.as_ptr(), array.len()));
    // SAFETY: each pointer has the length of its slice.
    unsafe {
        match *call {
            Call::ReadPane { pane, channel } => raw::menu_read_pane(
                player, s.0, s.1, b.0, b.1, f.0, f.1, v.0, v.1, m.0, m.1, pane, channel,
            ),
            Call::ReadMaterial { material, channel } => raw::menu_read_material(
                player, s.0, s.1, b.0, b.1, f.0, f.1, v.0, v.1, m.0, m.1, material, channel,
            ),
            _ => panic!("{call:?} reads no channel"),
        }
    }
}
