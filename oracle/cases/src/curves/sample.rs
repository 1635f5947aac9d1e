//! Curves in a sample: kind, how many keys, how many frames (u8 each), zero u8;
//! for each key frame, value and slope; the frames that it is asked at; and for
//! each of these the value's bits (u32) and the whole value (u16).

use super::{Answer, Keys, answer, some};
use crate::random::Random;
use crate::sample::{CURVES, Files, Record};

/// Frames asked of each curve.
const FRAMES: usize = 8;

/// The Rust's answers on `count` curves, each handed through `told` with its
/// number.
pub fn stored(seed: u64, count: usize, told: impl Fn(usize, Answer) -> Answer) -> Vec<Vec<u8>> {
    let mut random = Random::new(seed);
    let mut files = Files::new(CURVES);
    for curve in 0..count {
        let keys = some::keys(&mut random);
        let frames: Vec<f32> = (0..FRAMES)
            .map(|_| some::frame(&mut random, &keys))
            .collect();
        files.put(record(&keys, &frames, |i, answer| {
            told(curve * FRAMES + i, answer)
        }));
    }
    files.finish()
}

fn record(keys: &Keys, frames: &[f32], told: impl Fn(usize, Answer) -> Answer) -> Record {
    let mut record = Record::default();
    record.bytes(&[keys.kind, keys.len() as u8, frames.len() as u8, 0]);
    for i in 0..keys.len() {
        record.floats(&[keys.frames[i], keys.values[i], keys.slopes[i]]);
    }
    record.floats(frames);
    let curve = keys.curve();
    for (i, &frame) in frames.iter().enumerate() {
        let answer = told(i, answer(&curve, frame));
        record.u32(answer.value);
        record.u16(answer.whole as u16);
        record.case();
    }
    record
}

/// An answer that is not the Rust's in every seventh case, in turn of the value
/// and of the whole value: 10 of 64 cases.
pub fn wrong_at_times(number: usize, answer: Answer) -> Answer {
    match number % 14 {
        0 => Answer {
            value: answer.value ^ 1,
            ..answer
        },
        7 => Answer {
            whole: answer.whole ^ 1,
            ..answer
        },
        _ => answer,
    }
}
