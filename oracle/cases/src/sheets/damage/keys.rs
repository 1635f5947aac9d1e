//! Each key rule, broken alone in a sheet that is good, and what just keeps it.

use super::Changed;
use super::sheet::base;
use crate::format::sheet::Sheet;

const KEYS: u8 = 4;

/// The first keys of the base's three curves.
const HERMITE: usize = 0;
const STEP: usize = 3;
const CONSTANT: usize = 6;

/// The three numbers of a key.
#[derive(Clone, Copy)]
enum Part {
    Frame,
    Value,
    Slope,
}

use Part::{Frame, Slope, Value};

const TINY: f32 = f32::from_bits(1);

/// A key's number that is changed, and whether that breaks a rule. The frames
/// of the Hermite curve are 0, 4, 8, those of the Step curve 0, 2, 2.
const CHANGES: [(usize, Part, f32, bool); 43] = [
    (HERMITE, Frame, -0.0, false),
    (HERMITE, Frame, 4.0, false),
    (HERMITE, Frame, 4.000_001, true),
    (HERMITE + 1, Frame, -0.0, false),
    (HERMITE + 1, Frame, -TINY, true),
    (HERMITE + 1, Frame, 8.0, false),
    (HERMITE + 2, Frame, 4.0, false),
    (HERMITE + 2, Frame, 3.999_999_8, true),
    (HERMITE + 2, Frame, f32::MAX, false),
    (HERMITE, Frame, f32::MIN, false),
    (HERMITE, Value, f32::MAX, false),
    (HERMITE, Value, -0.0, false),
    (HERMITE, Slope, f32::MIN, false),
    (STEP, Frame, f32::MIN, false),
    (STEP, Frame, 2.0, false),
    (STEP, Frame, 2.000_000_2, true),
    (STEP + 2, Frame, 1.999_999_9, true),
    (STEP, Slope, -0.0, true),
    (STEP, Slope, TINY, true),
    (STEP + 2, Slope, 1.0, true),
    (STEP, Value, 0.0, false),
    (STEP, Value, -0.0, true),
    (STEP, Value, TINY, true),
    (STEP, Value, 0.5, true),
    (STEP, Value, -1.0, true),
    (STEP, Value, 65_535.0, false),
    (STEP, Value, 65_534.996, true),
    (STEP, Value, 65_535.004, true),
    (STEP, Value, 65_536.0, true),
    (STEP, Value, 16_777_216.0, true),
    (STEP, Value, f32::MAX, true),
    (CONSTANT, Frame, -0.0, true),
    (CONSTANT, Frame, TINY, true),
    (CONSTANT + 2, Frame, 1.0, true),
    (CONSTANT, Slope, -0.0, true),
    (CONSTANT + 2, Slope, TINY, true),
    (CONSTANT, Value, -0.0, false),
    (CONSTANT, Value, 0.5, false),
    (CONSTANT, Value, f32::MIN, false),
    // Between two curves frames may fall.
    (HERMITE + 2, Frame, 100.0, false),
    (STEP, Frame, -100.0, false),
    (STEP + 1, Frame, 0.0, false),
    (STEP + 1, Frame, -0.0, false),
];

/// Numbers that are not finite, which no key may hold.
const NOT_FINITE: [u32; 5] = [
    0x7F80_0000,
    0xFF80_0000,
    0x7FC0_0000,
    0x7F80_0001,
    0xFFFF_FFFF,
];

pub fn all() -> Vec<Changed> {
    let mut all: Vec<Changed> = CHANGES
        .iter()
        .map(|&(key, part, to, breaks)| changed(key, part, to, breaks))
        .collect();
    for bits in NOT_FINITE {
        for key in 0..9 {
            for part in [Frame, Value, Slope] {
                all.push(changed(key, part, f32::from_bits(bits), true));
            }
        }
    }
    all
}

fn changed(key: usize, part: Part, to: f32, breaks: bool) -> Changed {
    let mut sheet = base();
    let (what, numbers) = numbers(&mut sheet, part);
    numbers[key] = to;
    Changed {
        what: format!("key {key} has {what} {to:?}"),
        bytes: sheet.write(),
        refusal: if breaks { KEYS } else { 0 },
    }
}

fn numbers(sheet: &mut Sheet, part: Part) -> (&'static str, &mut Vec<f32>) {
    match part {
        Frame => ("frame", &mut sheet.frames),
        Value => ("value", &mut sheet.values),
        Slope => ("slope", &mut sheet.slopes),
    }
}
