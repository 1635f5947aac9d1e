//! A channel as it reads, frame by frame.

use dovebolt::{Channel, Player, Reading, Refusal};

use super::keys::Key;
use super::menu::Menu;

/// Readings a frame, and how many a picture has at most beside those at the keys.
const SAMPLES: f64 = 16.0;
const MOST_SAMPLES: f64 = 480.0;

/// The number of a pane or a material, and one of its channels.
pub type Place = (u16, Channel);

fn read(
    player: &mut Player,
    menu: &Menu,
    (number, channel): Place,
    frame: f32,
) -> Result<Reading, Refusal> {
    let (sheet, book, keys) = (menu.sheet.bytes(), menu.book.bytes(), &menu.keys);
    player.pose(sheet, Some(menu.animation.number), frame)?;
    match channel {
        Channel::Pane(channel) => player.read_pane(sheet, book, keys, number, channel),
        Channel::Material(channel) => player.read_material(sheet, book, keys, number, channel),
    }
}

/// What can be drawn: a Hermite formula may give infinities and NaNs.
fn number_of(reading: Reading) -> Option<f64> {
    let number = match reading {
        Reading::Nothing => None,
        Reading::Number(x) => Some(f64::from(x)),
        Reading::Shown(shown) => Some(f64::from(u8::from(shown))),
        Reading::Row(row) => Some(f64::from(row)),
        Reading::Level(level) => Some(f64::from(level)),
    };
    number.filter(|x| x.is_finite())
}

/// The animation's frames, and those of keys outside it.
pub fn ends(menu: &Menu, keys: &[Key]) -> (f64, f64) {
    let whole = (0.0, f64::from(menu.animation.frames.max(1)));
    keys.iter().fold(whole, |(first, last), key| {
        let frame = f64::from(key.frame);
        (first.min(frame), last.max(frame))
    })
}

/// The channel from the first frame to the last, also at each key, where a line may turn.
pub fn samples(
    player: &mut Player,
    menu: &Menu,
    place: Place,
    (first, last): (f64, f64),
    keys: &[Key],
) -> Result<Vec<(f32, Option<f64>)>, Refusal> {
    let count = ((last - first) * SAMPLES).min(MOST_SAMPLES).ceil();
    let at = |n: u32| (first + (last - first) * f64::from(n) / count) as f32;
    let mut frames: Vec<f32> = (0..=count as u32).map(at).collect();
    let inside = |f: &f32| first <= f64::from(*f) && f64::from(*f) <= last;
    frames.extend(keys.iter().map(|k| k.frame).filter(inside));
    frames.sort_by(f32::total_cmp);
    frames.dedup();
    let mut out = vec![];
    for frame in frames {
        let reading = read(player, menu, place, frame)?;
        out.push((frame, number_of(reading)));
    }
    Ok(out)
}
