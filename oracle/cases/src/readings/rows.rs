//! Rows of a table of frames.

use super::some;
use crate::format::sheet::Sheet;
use crate::random::Random;

/// How many rows; the frame of each but the first is the one before plus a step.
#[derive(Clone, Copy, Debug)]
pub struct Rows {
    pub times: usize,
    pub step: f32,
}

impl Rows {
    /// One to four from a first frame on, all at finite frames.
    pub fn some(random: &mut Random, sheet: &Sheet, first: f32) -> Self {
        let times = 1 + random.below(4);
        loop {
            let step = step(random, sheet, first, times);
            let rows = Self { times, step };
            if step.is_finite() && rows.last(first).is_finite() {
                return rows;
            }
        }
    }

    /// The frame of the last row: every sum is rounded.
    pub fn last(self, first: f32) -> f32 {
        (1..self.times).fold(first, |frame, _| frame + self.step)
    }
}

/// One with which the last row comes near a key, one as a player's, or any number.
fn step(random: &mut Random, sheet: &Sheet, first: f32, times: usize) -> f32 {
    match random.below(4) {
        0 => random.number(),
        1 => random.pick(&[0.1, 0.5, 1.0, -1.0]),
        _ => (some::frame(random, sheet) - first) / times.saturating_sub(1).max(1) as f32,
    }
}

#[cfg(test)]
mod tests {
    use super::*;

    /// At 2^24 a step of 1 is lost each time; three at once are not.
    #[test]
    fn a_frame_is_a_sum_of_steps() {
        let rows = |times| Rows { times, step: 1.0 };
        assert_eq!(rows(1).last(7.5), 7.5);
        assert_eq!(rows(4).last(7.5), 10.5);
        assert_eq!(rows(4).last(16_777_216.0), 16_777_216.0);
    }
}
