//! Every curve of few keys over small sets of numbers, at every frame of a set.

use super::{CONSTANT, HERMITE, Keys, STEP};

/// What the keys and the frame are taken from.
struct Choice<'a> {
    frames: &'a [f32],
    values: &'a [f32],
    slopes: &'a [f32],
    queries: &'a [f32],
}

const TINY: f32 = f32::from_bits(1);
const NEAR_ONE: f32 = f32::from_bits(0x3F7F_FFFF);
const QUERIES: [f32; 15] = [
    f32::MIN,
    -1.0,
    -0.0,
    0.0,
    TINY,
    0.01,
    0.5,
    1.0,
    1.5,
    2.0,
    2.5,
    3.0,
    9.9,
    16_777_216.0,
    f32::MAX,
];

/// Calls `visit` with each such curve and frame.
pub fn each(mut visit: impl FnMut(&Keys, f32)) {
    let constant = Choice {
        frames: &[0.0],
        values: &[
            0.0,
            -0.0,
            TINY,
            0.9,
            254.5,
            255.5,
            65_535.0,
            65_536.0,
            f32::MAX,
            f32::MIN,
        ],
        slopes: &[0.0],
        queries: &[
            f32::MIN,
            -1.0,
            -0.0,
            0.0,
            TINY,
            0.5,
            NEAR_ONE,
            1.0,
            1.5,
            2.0,
            3.0,
            9.9,
            16_777_216.0,
            9.223_372e18,
            1.844_674_4e19,
            f32::MAX,
        ],
    };
    let step = Choice {
        frames: &[f32::MIN, -1.0, -0.0, 0.0, TINY, 1.0, 2.0, 3.0, f32::MAX],
        values: &[0.0, 1.0, 255.0, 256.0, 65_535.0],
        slopes: &[0.0],
        queries: &QUERIES,
    };
    let hermite = Choice {
        values: &[
            0.0,
            -0.0,
            TINY,
            1.0,
            -1.0,
            255.5,
            65_535.0,
            f32::MAX,
            f32::MIN,
        ],
        slopes: &[0.0, -0.0, 1.0, -2.0, f32::MAX],
        ..step
    };
    let hermite_of_three = Choice {
        frames: &[-0.0, 0.0, 1.0, 2.0],
        values: &[0.0, 0.9, 255.5],
        slopes: &[0.0, -2.0],
        queries: &QUERIES,
    };
    for n in 0..=3 {
        extend(&mut Keys::of_kind(CONSTANT), n, &constant, &mut visit);
        extend(&mut Keys::of_kind(STEP), n, &step, &mut visit);
        let choice = if n < 3 { &hermite } else { &hermite_of_three };
        extend(&mut Keys::of_kind(HERMITE), n, choice, &mut visit);
    }
}

/// Adds `left` keys to the curve in every way in which frames never fall.
fn extend(keys: &mut Keys, left: usize, choice: &Choice, visit: &mut impl FnMut(&Keys, f32)) {
    if left == 0 {
        choice.queries.iter().for_each(|&frame| visit(keys, frame));
        return;
    }
    for &frame in choice.frames {
        if keys.frames.last().is_some_and(|&last| frame < last) {
            continue;
        }
        for &value in choice.values {
            for &slope in choice.slopes {
                keys.push(frame, value, slope);
                extend(keys, left - 1, choice, visit);
                keys.pop();
            }
        }
    }
}
