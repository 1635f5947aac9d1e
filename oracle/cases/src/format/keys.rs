//! The key rules (row 4), of a sheet's own keys or of lent ones.

use super::sheet::{Sheet, Target};
use crate::curves::{CONSTANT, STEP};

/// Whether the keys of every target follow the rules. The arrays are as long as
/// the sheet says.
pub fn ok(sheet: &Sheet, frames: &[f32], values: &[f32], slopes: &[f32]) -> bool {
    sheet.targets.iter().all(|target| {
        let keys = target.keys();
        curve_ok(
            target.curve,
            &frames[keys.clone()],
            &values[keys.clone()],
            &slopes[keys],
        )
    })
}

/// Whether a sheet's own keys follow the rules.
pub fn own_ok(sheet: &Sheet) -> bool {
    ok(sheet, &sheet.frames, &sheet.values, &sheet.slopes)
}

fn curve_ok(curve: u8, frames: &[f32], values: &[f32], slopes: &[f32]) -> bool {
    let all = [frames, values, slopes].concat();
    if !all.iter().all(|x| x.is_finite()) {
        return false;
    }
    match curve {
        CONSTANT => frames.iter().chain(slopes).all(is_plus_zero),
        STEP => {
            slopes.iter().all(is_plus_zero) && values.iter().all(is_whole_u16) && never_fall(frames)
        }
        _ => never_fall(frames),
    }
}

fn is_plus_zero(x: &f32) -> bool {
    x.to_bits() == 0
}

/// Whole in 0..65,535, and not -0.
fn is_whole_u16(x: &f32) -> bool {
    x.to_bits() == f32::from(*x as u16).to_bits()
}

fn never_fall(frames: &[f32]) -> bool {
    frames.windows(2).all(|pair| pair[0] <= pair[1])
}

impl Target {
    /// The rows of the key arrays that the target's curve owns.
    pub fn keys(&self) -> std::ops::Range<usize> {
        let first = usize::from(self.first_key);
        first..first + usize::from(self.key_count)
    }
}
