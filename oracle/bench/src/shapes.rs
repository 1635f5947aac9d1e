//! Texture coordinates and corners, ours beside the Rust's.

use crate::timing::{Both, side_by_side};
use cases::geometry::uvs::{texture_srt, texture_uv};
use dovebolt::{Vector2f, Vector3f};
use published::bflyt::pane::{HorizontalPosition, VerticalPosition};
use published::pane_tree::{Corners, PaneNode};
use published::ui2d::types;
use std::hint::black_box;

/// Three layers, each turned.
pub fn uvs() -> Both {
    let layer = [0.0, 0.0, 1.0, 0.0, 0.0, 1.0, 1.0, 1.0];
    let srt = [0.25, -0.5, 30.0, 2.0, 0.5];
    let (layers, srts) = ([layer; 3], [srt; 3]);
    let published = (
        layers.map(|l| texture_uv(&l)),
        srts.map(|s| texture_srt(&s)),
    );
    let mut out = [0.0; 24];
    side_by_side(
        &mut || {
            let (layers, srts) = (black_box(&layers), black_box(&srts));
            dovebolt::uvs_into(layers.as_flattened(), srts.as_flattened(), &mut out).expect("uvs");
        },
        &mut || {
            let (layers, srts) = black_box(&published);
            black_box(PaneNode::apply_srt_to_uvs(
                PaneNode::compute_uvs(layers),
                srts,
            ));
        },
    )
}

pub fn corners() -> Both {
    let ours = (
        Vector2f { x: 10.0, y: 20.0 },
        Vector2f { x: 4.0, y: 2.0 },
        Vector3f {
            x: 10.0,
            y: 20.0,
            z: 30.0,
        },
    );
    let (center, size) = (
        types::Vector2f::new(10.0, 20.0),
        types::Vector2f::new(4.0, 2.0),
    );
    let rotation = types::Vector3f {
        x: 10.0,
        y: 20.0,
        z: 30.0,
    };
    let (across, down) = (HorizontalPosition::Center, VerticalPosition::Center);
    side_by_side(
        &mut || {
            let (center, size, rotation) = black_box(ours);
            black_box(dovebolt::corners(center, size, 0, 0, rotation).expect("corners"));
        },
        &mut || {
            let (center, size, rotation) = black_box((center, size, rotation));
            black_box(Corners::compute(center, size, &across, &down, rotation));
        },
    )
}
