//! Cases of the UVs and of the corners, and what of them the table declines.
//! Document 01, "What a call declines": 7 for an origin, 8 for a number that is
//! not finite or a list not of whole entries, 12 for an angle above 3,600
//! degrees in size, 13 for an output not exactly as long; by rising number.

pub mod corners;
pub mod moves;
pub mod sample;
pub mod uvs;

use crate::random::Random;

pub const NO_ORIGIN: u8 = 7;
pub const NOT_FINITE: u8 = 8;
pub const ANGLE: u8 = 12;
pub const OUTPUT: u8 = 13;

pub const MOST_DEGREES: f32 = 3600.0;

/// Every whole and half number of degrees that is admitted.
pub fn half_degrees() -> impl Iterator<Item = f32> {
    (-7200..=7200).map(|half| half as f32 * 0.5)
}

/// Some admitted angle: a round one, any whole or half one, or any f32.
fn angle(random: &mut Random) -> f32 {
    let half = random.below(14_401) as f32 * 0.5 - MOST_DEGREES;
    let any = random.number() % MOST_DEGREES;
    let round = random.pick(&[0.0, -0.0, 45.0, 90.0, 180.0, 270.0, -90.0, 3600.0, -3600.0]);
    random.pick(&[0.0, round, half, any])
}

/// An angle that is just too large, or far too large.
fn wide_angle(random: &mut Random) -> f32 {
    let past = MOST_DEGREES.next_up();
    random.pick(&[past, -past, 3601.0, f32::MAX, f32::MIN])
}

fn not_finite(random: &mut Random) -> f32 {
    random.pick(&[f32::NAN, f32::INFINITY, f32::NEG_INFINITY])
}

fn any_not_finite(numbers: &[f32]) -> bool {
    numbers.iter().any(|x| !x.is_finite())
}

fn too_wide(angles: &[f32]) -> bool {
    angles.iter().any(|degrees| degrees.abs() > MOST_DEGREES)
}
