//! A key asked for what it has, by the same number or by one that the clamp or the
//! rounding brings back to it; and zeros of both signs.

use crate::calls::held::Held;
use crate::curves::{CONSTANT, STEP};
use crate::format::sheet::Target;
use crate::random::Random;

pub fn key(random: &mut Random, held: &Held, target: &Target, key: usize) -> (f32, f32) {
    let [frame, value, _] = numbers(held, target, key);
    let frame = match target.curve {
        CONSTANT => random.tame(60), // any is as good
        // The last two are at a bound where the key is.
        _ => random.pick(&[frame, frame, frame, -4.0, f32::MAX]),
    };
    let value = or_zero(random, value);
    let value = match target.curve {
        STEP => random.pick(&[value, value + 0.25, value - 0.25]),
        _ => value,
    };
    (frame, value)
}

pub fn slope(random: &mut Random, held: &Held, target: &Target, key: usize) -> f32 {
    let [_, _, slope] = numbers(held, target, key);
    or_zero(random, slope)
}

/// The number, now and then a zero; either zero for a zero.
fn or_zero(random: &mut Random, number: f32) -> f32 {
    if number == 0.0 || random.once_in(4) {
        random.pick(&[0.0, -0.0])
    } else {
        number
    }
}

fn numbers(held: &Held, target: &Target, key: usize) -> [f32; 3] {
    let at = target.keys().start + key;
    held.keys.each_ref().map(|array| array[at])
}
