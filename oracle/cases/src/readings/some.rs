//! Random cases of readings.

use super::Case;
use crate::curves::STEP;
use crate::format::sheet::Sheet;
use crate::random::Random;
use crate::sheets::{books, good, names};

pub fn case(random: &mut Random) -> Case {
    let size = books::size(random);
    let book = books::book(random, size);
    let size = good::size(random);
    let mut sheet = good::sheet(random, size, &book);
    vary(random, &mut sheet);
    vary_textures(random, &mut sheet);
    let active = active(random, &sheet);
    Case {
        sheet,
        book,
        active,
    }
}

/// A full book, and a full sheet whose contents are all of the animation that is
/// read: a reading searches for as many names as it can.
pub fn crowded(random: &mut Random) -> Case {
    let book = books::book(random, books::FULL);
    let mut sheet = good::sheet(random, good::FULL, &book);
    let animation = random.below(sheet.animations.len());
    for content in &mut sheet.contents {
        content.animation = animation as u8;
    }
    vary(random, &mut sheet);
    vary_textures(random, &mut sheet);
    let active = Some((animation, frame(random, &sheet)));
    Case {
        sheet,
        book,
        active,
    }
}

/// Now and then nothing; else some animation, at a frame near some key.
pub fn active(random: &mut Random, sheet: &Sheet) -> Option<(usize, f32)> {
    if random.once_in(32) {
        return None;
    }
    let animation = random.below(sheet.animations.len());
    Some((animation, frame(random, sheet)))
}

/// Gives some targets any layer or raw number, and some the code, the layer and
/// the raw number of the one before, so that channels repeat.
pub fn vary(random: &mut Random, sheet: &mut Sheet) {
    for i in 0..sheet.targets.len() {
        let earlier = sheet.targets[i.saturating_sub(1)];
        let target = &mut sheet.targets[i];
        match random.below(16) {
            0 => target.layer = random.below(256) as u8,
            1 => target.raw = random.below(256) as u8,
            2..4 => {
                (target.code, target.layer, target.raw) = (earlier.code, earlier.layer, earlier.raw)
            }
            _ => {}
        }
    }
}

/// Gives the textures names that are easily confused, and makes some targets
/// ones of a texture slot; a Step's values are then rows of the textures, or
/// just above them.
pub fn vary_textures(random: &mut Random, sheet: &mut Sheet) {
    let textures = sheet.textures.len();
    sheet.textures = names::distinct(random, textures);
    for target in &mut sheet.targets {
        if !random.once_in(8) {
            continue;
        }
        (target.code, target.layer) = (*b"FLTP", random.below(3) as u8);
        if target.curve == STEP {
            for value in &mut sheet.values[target.keys()] {
                *value = random.below(textures + 2) as f32;
            }
        }
    }
}

pub fn frame(random: &mut Random, sheet: &Sheet) -> f32 {
    if sheet.frames.is_empty() || random.once_in(4) {
        return random.number();
    }
    let near = random.pick(&sheet.frames);
    let frame = near + random.pick(&[0.0, 0.0, 0.5, -0.5, 1.0, 3.25]);
    if frame.is_finite() { frame } else { near }
}
