//! Loading: the keys of a sheet into three lent arrays. It declines by row 1, 3
//! or 4, and then leaves the arrays.

use super::keys;
use super::sheet::Sheet;
use crate::bits::bits_of;

/// Frames, values and slopes.
pub type Arrays = [Vec<f32>; 3];

/// The refusal, or 0, and the bits of the arrays after the call.
#[derive(Debug, PartialEq)]
pub struct Answer {
    pub refusal: u8,
    pub arrays: [Vec<u32>; 3],
}

impl Answer {
    pub fn new(refusal: u8, arrays: Arrays) -> Self {
        let arrays = arrays.map(|array| array.into_iter().map(bits_of).collect());
        Self { refusal, arrays }
    }
}

pub fn answer(bytes: &[u8], arrays: &Arrays) -> Answer {
    let Some(sheet) = Sheet::read(bytes) else {
        return Answer::new(1, arrays.clone());
    };
    if arrays.iter().any(|array| array.len() != sheet.frames.len()) {
        return Answer::new(3, arrays.clone());
    }
    if !keys::own_ok(&sheet) {
        return Answer::new(4, arrays.clone());
    }
    Answer::new(0, [sheet.frames, sheet.values, sheet.slopes])
}
