//! The proved UVs and corners, through the package `dovebolt`. Calls by value
//! go through its module `raw`, since a refused one has an answer too.

use cases::bits::bits_of;
use cases::geometry::{corners, moves, uvs};
use dovebolt::raw::{self, Placed};
use dovebolt::{Corners, Vector2f, Vector3f};

/// The call on an output in which `before` stands throughout.
pub fn uvs(case: &uvs::Case, before: f32) -> uvs::Answer {
    let mut out = vec![before; case.output];
    let answer = dovebolt::uvs_into(&case.layers, &case.srts, &mut out);
    uvs::Answer {
        refusal: answer.err().map_or(0, |refusal| refusal.number()),
        output: out.into_iter().map(bits_of).collect(),
    }
}

pub fn corners(case: &corners::Case) -> corners::Answer {
    // SAFETY: numbers only, as in the two calls below.
    placed(unsafe {
        raw::menu_corners(
            vector2(case.center),
            vector2(case.size),
            case.horizontal,
            case.vertical,
            vector3(case.rotation),
        )
    })
}

pub fn translate(case: &moves::Translate) -> corners::Answer {
    let [top_left, top_right, bottom_left, bottom_right] = case.corners.map(vector2);
    let corners = Corners {
        top_left,
        top_right,
        bottom_left,
        bottom_right,
    };
    placed(unsafe { raw::menu_translate(corners, vector2(case.delta)) })
}

pub fn rotate_point(case: &moves::Rotate) -> moves::Point {
    let [point, center] = [case.point, case.center].map(vector2);
    let turned = unsafe { raw::menu_rotate_point(point, center, vector3(case.rotation)) };
    moves::Point {
        refusal: turned.refusal,
        numbers: bits(turned.point),
    }
}

fn placed(Placed { refusal, corners }: Placed) -> corners::Answer {
    let Corners {
        top_left,
        top_right,
        bottom_left,
        bottom_right,
    } = corners;
    let pairs = [top_left, top_right, bottom_left, bottom_right].map(bits);
    corners::Answer {
        refusal,
        numbers: std::array::from_fn(|i| pairs[i / 2][i % 2]),
    }
}

fn bits(point: Vector2f) -> [u32; 2] {
    [bits_of(point.x), bits_of(point.y)]
}

fn vector2([x, y]: [f32; 2]) -> Vector2f {
    Vector2f { x, y }
}

fn vector3([x, y, z]: [f32; 3]) -> Vector3f {
    Vector3f { x, y, z }
}
