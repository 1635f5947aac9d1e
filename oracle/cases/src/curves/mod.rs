//! Cases of `eval_curve` and `eval_curve_step_u16`: a curve whose keys follow
//! document 01's key rules, and a finite frame.

pub mod all_short;
pub mod sample;
pub mod some;

use crate::bits::bits_of;
use published::anim_state::{eval_curve, eval_curve_step_u16};
use published::bflan::curves::{Curve, HermiteKey, StepKey};

pub const CONSTANT: u8 = 0;
pub const STEP: u8 = 1;
pub const HERMITE: u8 = 2;

/// The keys of one target, as the lent arrays have them.
#[derive(Clone, Debug, Default, PartialEq)]
pub struct Keys {
    pub kind: u8,
    pub frames: Vec<f32>,
    pub values: Vec<f32>,
    pub slopes: Vec<f32>,
}

/// What the Rust answers at a frame: as a number, by its bits, and as a u16.
#[derive(Clone, Copy, Debug, PartialEq)]
pub struct Answer {
    pub value: u32,
    pub whole: u32,
}

impl Keys {
    pub fn of_kind(kind: u8) -> Self {
        Self {
            kind,
            ..Self::default()
        }
    }

    pub fn push(&mut self, frame: f32, value: f32, slope: f32) {
        self.frames.push(frame);
        self.values.push(value);
        self.slopes.push(slope);
    }

    pub fn pop(&mut self) {
        self.frames.pop();
        self.values.pop();
        self.slopes.pop();
    }

    pub fn len(&self) -> usize {
        self.frames.len()
    }

    pub fn is_empty(&self) -> bool {
        self.frames.is_empty()
    }

    /// The curve that the published text reads.
    pub fn curve(&self) -> Curve {
        let rows = 0..self.len();
        match self.kind {
            CONSTANT => Curve::Constant(self.values.clone()),
            STEP => Curve::Step(
                rows.map(|i| StepKey {
                    frame: self.frames[i],
                    value: self.values[i] as u16,
                })
                .collect(),
            ),
            _ => Curve::Hermite(
                rows.map(|i| HermiteKey {
                    frame: self.frames[i],
                    value: self.values[i],
                    slope: self.slopes[i],
                })
                .collect(),
            ),
        }
    }
}

pub fn answer(curve: &Curve, frame: f32) -> Answer {
    Answer {
        value: bits_of(eval_curve(curve, frame)),
        whole: eval_curve_step_u16(curve, frame) as u32,
    }
}
