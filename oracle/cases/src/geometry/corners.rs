//! `Corners::compute`, by origin and rotation.

use super::{ANGLE, NO_ORIGIN, NOT_FINITE};
use super::{angle, any_not_finite, half_degrees, not_finite, too_wide, wide_angle};
use crate::bits::bits_of;
use crate::random::Random;
use published::bflyt::pane::{HorizontalPosition, VerticalPosition};
use published::pane_tree::Corners;
use published::ui2d::types::{Vector2f, Vector3f};

#[derive(Clone, Copy, Debug)]
pub struct Case {
    pub center: [f32; 2],
    pub size: [f32; 2],
    pub horizontal: u8,
    pub vertical: u8,
    pub rotation: [f32; 3],
}

/// The refusal, or 0 and the corners' bits: x and y of top left, top right,
/// bottom left, bottom right. A refused answer is zero throughout.
#[derive(Clone, Copy, Debug, PartialEq)]
pub struct Answer {
    pub refusal: u8,
    pub numbers: [u32; 8],
}

pub fn answer(case: &Case) -> Answer {
    let refusal = refusal(case);
    let numbers = if refusal == 0 { corners(case) } else { [0; 8] };
    Answer { refusal, numbers }
}

fn refusal(case: &Case) -> u8 {
    if case.horizontal > 2 || case.vertical > 2 {
        NO_ORIGIN
    } else if any_not_finite(&case.center)
        || any_not_finite(&case.size)
        || any_not_finite(&case.rotation)
    {
        NOT_FINITE
    } else if too_wide(&case.rotation) {
        ANGLE
    } else {
        0
    }
}

fn corners(case: &Case) -> [u32; 8] {
    let [x, y, z] = case.rotation;
    let corners = Corners::compute(
        vector(case.center),
        vector(case.size),
        &horizontal(case.horizontal),
        &vertical(case.vertical),
        Vector3f { x, y, z },
    );
    let flat = corners.to_array();
    std::array::from_fn(|i| bits_of(flat[i / 2][i % 2]))
}

fn vector([x, y]: [f32; 2]) -> Vector2f {
    Vector2f::new(x, y)
}

/// Document 01: origins 0 Center, 1 Left or Top, 2 Right or Bottom.
fn horizontal(origin: u8) -> HorizontalPosition {
    match origin {
        0 => HorizontalPosition::Center,
        1 => HorizontalPosition::Left,
        _ => HorizontalPosition::Right,
    }
}

fn vertical(origin: u8) -> VerticalPosition {
    match origin {
        0 => VerticalPosition::Center,
        1 => VerticalPosition::Top,
        _ => VerticalPosition::Bottom,
    }
}

/// Some case, one in eight with something that is declined.
pub fn some(random: &mut Random) -> Case {
    let mut case = Case {
        center: std::array::from_fn(|_| random.number()),
        size: std::array::from_fn(|_| random.number()),
        horizontal: random.below(3) as u8,
        vertical: random.below(3) as u8,
        rotation: std::array::from_fn(|_| angle(random)),
    };
    if random.once_in(8) {
        for _ in 0..1 + random.below(2) {
            spoil(random, &mut case);
        }
    }
    case
}

fn spoil(random: &mut Random, case: &mut Case) {
    match random.below(6) {
        0 => case.horizontal = random.pick(&[3, 255]),
        1 => case.vertical = random.pick(&[3, 255]),
        2 => case.center[random.below(2)] = not_finite(random),
        3 => case.size[random.below(2)] = not_finite(random),
        4 => case.rotation[random.below(3)] = not_finite(random),
        _ => case.rotation[random.below(3)] = wide_angle(random),
    }
}

/// Every whole and half degree on each axis alone, at every pair of origins.
pub fn each_turn(mut visit: impl FnMut(&Case)) {
    for degrees in half_degrees() {
        for place in 0..27 {
            let mut rotation = [0.0; 3];
            rotation[place % 3] = degrees;
            visit(&Case {
                center: [10.0, 20.0],
                size: [64.0, 48.5],
                horizontal: (place / 3 % 3) as u8,
                vertical: (place / 9) as u8,
                rotation,
            });
        }
    }
}
