//! A key of the example menu that several tests edit, and keys by their bits.

use dovebolt::{Keys, Player, example};

/// The Hermite track of animation 0, its second key (8, 16, 0), and where that key is in the arrays.
pub const TRACK: u16 = 3;
pub const KEY: u16 = 1;
pub const PLACE: usize = 6;

/// Animation 0 held at a frame.
pub fn posed(frame: f32) -> (Vec<u8>, Player, Keys) {
    let sheet = example::sheet();
    let (mut player, keys) = Player::load(&sheet).unwrap();
    player.pose(&sheet, Some(0), frame).unwrap();
    (sheet, player, keys)
}

pub fn bits(keys: &Keys) -> [Vec<u32>; 3] {
    [&keys.frames, &keys.values, &keys.slopes]
        .map(|array| array.iter().map(|x| x.to_bits()).collect())
}
