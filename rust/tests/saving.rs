//! What a saved sheet holds, byte by byte, and that loading it gives the keys that were saved.

mod common;

use common::{KEY, PLACE, TRACK, bits, posed};
use dovebolt::Player;

/// A sheet of these counts. Each track is a Hermite curve of eight keys, and their numbers all differ.
fn sheet_of(animations: u16, contents: u16, tracks: u16, textures: u16) -> Vec<u8> {
    let keys = tracks * 8;
    let mut out = vec![];
    for count in [animations, contents, tracks, keys, textures, 0] {
        out.extend(count.to_le_bytes());
    }
    let rows = usize::from(animations + contents) * 28;
    out.resize(out.len() + rows, 0);
    for track in 0..tracks {
        out.extend([0, 0, 0, 0, 0, 0, 0, 0, 2, 0]);
        out.extend((track * 8).to_le_bytes());
        out.extend(8u16.to_le_bytes());
    }
    out.extend((0..usize::from(textures) * 24).map(|n| n as u8));
    out.extend((0..keys).flat_map(|n| f32::from(n).to_le_bytes()));
    out.extend((0..keys * 2).flat_map(|n| (f32::from(n) * -0.3).to_le_bytes()));
    out
}

/// One key has changed, and the bytes of its frame, value and slope are all that differ.
#[test]
fn an_edited_key() {
    let (sheet, mut player, mut keys) = posed(2.0);
    player
        .key_edit(&sheet, &mut keys, TRACK, KEY, 6.5, -20.25)
        .unwrap();
    player
        .slope_edit(&sheet, &mut keys, TRACK, KEY, 0.3)
        .unwrap();
    let points = sheet.len() - 8 * keys.frames.len();
    let frames = points - 4 * keys.frames.len();
    let mut expected = sheet.clone();
    let mut put = |at: usize, x: f32| expected[at..at + 4].copy_from_slice(&x.to_le_bytes());
    put(frames + 4 * PLACE, 6.5);
    put(points + 8 * PLACE, -20.25);
    put(points + 8 * PLACE + 4, 0.3);
    assert_eq!(player.save(&sheet, &keys).unwrap(), expected);
}

/// Patterns survive that a comparison of numbers, or a flush to zero, would lose.
#[test]
fn zeros_and_subnormals() {
    let (sheet, player, mut keys) = posed(2.0);
    let least = f32::from_bits(1);
    (keys.frames[5], keys.values[5], keys.slopes[5]) = (-0.0, least, -0.0);
    (keys.frames[6], keys.values[6], keys.slopes[6]) = (least, -0.0, -least);
    let saved = player.save(&sheet, &keys).unwrap();
    let (again, loaded) = Player::load(&saved).unwrap();
    assert_eq!(bits(&loaded), bits(&keys));
    assert_eq!(again.save(&saved, &loaded).unwrap(), saved);
}

/// Edits and their undos with playing between them leave the sheet; of 200 edits 128 can be undone.
#[test]
fn standing_edits_decide() {
    let (sheet, mut player, mut keys) = posed(2.0);
    for edits in [1, 128, 200] {
        for n in 0..edits {
            player
                .key_edit(&sheet, &mut keys, TRACK, KEY, 6.0, n as f32)
                .unwrap();
        }
        assert_ne!(player.save(&sheet, &keys).unwrap(), sheet);
        player.tick(&sheet, 0.5, 8.0).unwrap();
        while player.reach() > 0 {
            player.undo(&sheet, &mut keys).unwrap();
        }
        player.play(&sheet, Some(0)).unwrap();
        let saved = player.save(&sheet, &keys).unwrap();
        assert_eq!(saved == sheet, edits <= 128, "after {edits} edits");
        assert_eq!(bits(&Player::load(&saved).unwrap().1), bits(&keys));
    }
}

/// Without keys or texture names, and the largest sheet that there is.
#[test]
fn sheets_of_every_size() {
    for (sheet, length) in [
        (sheet_of(1, 0, 0, 0), 40),
        (sheet_of(1, 1, 1, 0), 178),
        (sheet_of(8, 64, 256, 64), 31_724),
    ] {
        assert_eq!(sheet.len(), length);
        let (player, mut keys) = Player::load(&sheet).unwrap();
        assert_eq!(player.save(&sheet, &keys).unwrap(), sheet);
        keys.values.iter_mut().for_each(|x| *x += 0.5);
        let saved = player.save(&sheet, &keys).unwrap();
        assert_eq!(bits(&Player::load(&saved).unwrap().1), bits(&keys));
    }
}
