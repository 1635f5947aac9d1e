//! `compute_uvs` and then `apply_srt_to_uvs`: the UV block.

use super::{ANGLE, NOT_FINITE, OUTPUT};
use super::{angle, any_not_finite, half_degrees, not_finite, too_wide, wide_angle};
use crate::bits::bits_of;
use crate::random::Random;
use published::bflyt::list::MaterialTextureSrt;
use published::bflyt::pane::TextureUv;
use published::pane_tree::PaneNode;
use published::ui2d::types::Vector2f;

/// Layers of eight numbers (u and v of top left, top right, bottom left, bottom
/// right), SRTs of five, in the book's order, and how long the output is.
#[derive(Clone, Debug)]
pub struct Case {
    pub layers: Vec<f32>,
    pub srts: Vec<f32>,
    pub output: usize,
}

/// The block: four corners of three layers of a pair.
pub const BLOCK: usize = 24;

/// The refusal, or 0, and the bits of the output after the call: the block, or
/// what stood there before.
#[derive(Clone, Debug, PartialEq)]
pub struct Answer {
    pub refusal: u8,
    pub output: Vec<u32>,
}

pub fn answer(case: &Case, before: f32) -> Answer {
    let refusal = refusal(case);
    let output = match refusal {
        0 => block(case).to_vec(),
        _ => vec![bits_of(before); case.output],
    };
    Answer { refusal, output }
}

fn refusal(case: &Case) -> u8 {
    let (layers, layers_rest) = case.layers.as_chunks::<8>();
    let (srts, srts_rest) = case.srts.as_chunks::<5>();
    let angles: Vec<f32> = srts.iter().map(|srt| srt[2]).collect();
    if !layers_rest.is_empty()
        || !srts_rest.is_empty()
        || any_not_finite(layers.as_flattened())
        || any_not_finite(srts.as_flattened())
    {
        NOT_FINITE
    } else if too_wide(&angles) {
        ANGLE
    } else if case.output != BLOCK {
        OUTPUT
    } else {
        0
    }
}

fn block(case: &Case) -> [u32; BLOCK] {
    let layers = case.layers.as_chunks().0.iter().map(texture_uv);
    let srts = case.srts.as_chunks().0.iter().map(texture_srt);
    let base = PaneNode::compute_uvs(&layers.collect::<Vec<TextureUv>>());
    let block = PaneNode::apply_srt_to_uvs(base, &srts.collect::<Vec<MaterialTextureSrt>>());
    let flat = block.as_flattened().as_flattened();
    std::array::from_fn(|i| bits_of(flat[i]))
}

pub fn texture_uv(layer: &[f32; 8]) -> TextureUv {
    let corner = |i: usize| Vector2f::new(layer[2 * i], layer[2 * i + 1]);
    TextureUv {
        top_left: corner(0),
        top_right: corner(1),
        bottom_left: corner(2),
        bottom_right: corner(3),
    }
}

pub fn texture_srt(srt: &[f32; 5]) -> MaterialTextureSrt {
    let [translate_u, translate_v, rotate, scale_u, scale_v] = *srt;
    MaterialTextureSrt {
        translate_u,
        translate_v,
        rotate,
        scale_u,
        scale_v,
    }
}

/// Up to five layers and SRTs, of which the fourth and later ones are ignored;
/// one case in eight with something that is declined.
pub fn some(random: &mut Random) -> Case {
    let (layers, srts) = (random.below(6), random.below(6));
    let mut case = Case {
        layers: (0..8 * layers).map(|_| random.number()).collect(),
        srts: (0..srts).flat_map(|_| some_srt(random)).collect(),
        output: BLOCK,
    };
    if random.once_in(8) {
        for _ in 0..1 + random.below(2) {
            spoil(random, &mut case);
        }
    }
    case
}

fn some_srt(random: &mut Random) -> [f32; 5] {
    let mut srt = std::array::from_fn(|_| random.number());
    srt[2] = angle(random);
    srt
}

fn spoil(random: &mut Random, case: &mut Case) {
    let rest = random.below(8);
    match random.below(6) {
        0 => case.layers.resize(case.layers.len() + rest, 0.0),
        1 => case.srts.resize(case.srts.len() + rest, 0.0),
        2 if !case.layers.is_empty() => {
            let at = random.below(case.layers.len());
            case.layers[at] = not_finite(random);
        }
        3 if !case.srts.is_empty() => {
            let at = random.below(case.srts.len());
            case.srts[at] = not_finite(random);
        }
        4 if case.srts.len() >= 5 => {
            let at = random.below(case.srts.len() / 5) * 5 + 2;
            case.srts[at] = wide_angle(random);
        }
        _ => case.output = random.pick(&[0, 23, 25]),
    }
}

/// The unit square turned by every whole and half degree, on each layer.
pub fn each_turn(mut visit: impl FnMut(&Case)) {
    for degrees in half_degrees() {
        let srts = [
            [0.0, 0.0, degrees, 1.0, 1.0],
            [0.25, -0.5, degrees, 2.0, 0.5],
            [-1.0, 3.0, degrees, -1.0, 0.0],
        ];
        visit(&Case {
            layers: Vec::new(),
            srts: srts.as_flattened().to_vec(),
            output: BLOCK,
        });
    }
}
