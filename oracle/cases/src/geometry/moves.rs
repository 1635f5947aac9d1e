//! `translate` and `rotate_point` of the corners.

use super::corners::Answer;
use super::{ANGLE, NOT_FINITE, angle, any_not_finite, not_finite, too_wide, wide_angle};
use crate::bits::bits_of;
use crate::random::Random;
use published::pane_tree::Corners;
use published::ui2d::types::{Vector2f, Vector3f};

/// Corners that are moved: top left, top right, bottom left, bottom right.
#[derive(Clone, Copy, Debug)]
pub struct Translate {
    pub corners: [[f32; 2]; 4],
    pub delta: [f32; 2],
}

/// A point that is turned about a centre.
#[derive(Clone, Copy, Debug)]
pub struct Rotate {
    pub point: [f32; 2],
    pub center: [f32; 2],
    pub rotation: [f32; 3],
}

/// The refusal, or 0 and the point's bits.
#[derive(Clone, Copy, Debug, PartialEq)]
pub struct Point {
    pub refusal: u8,
    pub numbers: [u32; 2],
}

pub fn translated(case: &Translate) -> Answer {
    if any_not_finite(case.corners.as_flattened()) || any_not_finite(&case.delta) {
        return Answer {
            refusal: NOT_FINITE,
            numbers: [0; 8],
        };
    }
    let [top_left, top_right, bottom_left, bottom_right] = case.corners.map(vector);
    let corners = Corners {
        top_left,
        top_right,
        bottom_left,
        bottom_right,
    };
    let flat = corners.translate(vector(case.delta)).to_array();
    Answer {
        refusal: 0,
        numbers: std::array::from_fn(|i| bits_of(flat[i / 2][i % 2])),
    }
}

pub fn rotated(case: &Rotate) -> Point {
    let refusal = if any_not_finite(&case.point)
        || any_not_finite(&case.center)
        || any_not_finite(&case.rotation)
    {
        NOT_FINITE
    } else if too_wide(&case.rotation) {
        ANGLE
    } else {
        0
    };
    if refusal != 0 {
        let numbers = [0; 2];
        return Point { refusal, numbers };
    }
    let [x, y, z] = case.rotation;
    let point = Corners::rotate_point(
        vector(case.point),
        vector(case.center),
        Vector3f { x, y, z },
    );
    Point {
        refusal,
        numbers: [bits_of(point.x), bits_of(point.y)],
    }
}

fn vector([x, y]: [f32; 2]) -> Vector2f {
    Vector2f::new(x, y)
}

/// Some move, one in eight with a number that is not finite.
pub fn some_translate(random: &mut Random) -> Translate {
    let mut case = Translate {
        corners: std::array::from_fn(|_| std::array::from_fn(|_| random.number())),
        delta: std::array::from_fn(|_| random.number()),
    };
    if random.once_in(8) {
        match random.below(2) {
            0 => case.corners[random.below(4)][random.below(2)] = not_finite(random),
            _ => case.delta[random.below(2)] = not_finite(random),
        }
    }
    case
}

/// Some turn, one in eight with something that is declined.
pub fn some_rotate(random: &mut Random) -> Rotate {
    let mut case = Rotate {
        point: std::array::from_fn(|_| random.number()),
        center: std::array::from_fn(|_| random.number()),
        rotation: std::array::from_fn(|_| angle(random)),
    };
    if random.once_in(8) {
        match random.below(4) {
            0 => case.point[random.below(2)] = not_finite(random),
            1 => case.center[random.below(2)] = not_finite(random),
            2 => case.rotation[random.below(3)] = not_finite(random),
            _ => case.rotation[random.below(3)] = wide_angle(random),
        }
    }
    case
}
