//! UVs and corners in samples.

use super::{corners, uvs};
use crate::random::Random;
use crate::sample::{CORNERS, Files, Record, UVS};

/// A UV record: how many numbers the layers, the SRTs and the output have, and
/// the refusal (u8 each); the layers, the SRTs (f32); the bits of the output
/// after the call (u32), in which +0 stood before.
pub fn uv_files(
    seed: u64,
    count: usize,
    told: impl Fn(usize, uvs::Answer) -> uvs::Answer,
) -> Vec<Vec<u8>> {
    let mut random = Random::new(seed);
    let mut files = Files::new(UVS);
    for number in 0..count {
        let case = uvs::some(&mut random);
        let answer = told(number, uvs::answer(&case, 0.0));
        files.put(uv_record(&case, &answer));
    }
    files.finish()
}

fn uv_record(case: &uvs::Case, answer: &uvs::Answer) -> Record {
    let mut record = Record::default();
    record.u8(case.layers.len() as u8);
    record.u8(case.srts.len() as u8);
    record.u8(case.output as u8);
    record.u8(answer.refusal);
    record.floats(&case.layers);
    record.floats(&case.srts);
    record.answers(&answer.output);
    record.case();
    record
}

/// A record of corners: centre, size and rotation (f32), horizontal and vertical
/// origin, the refusal and zero (u8 each), the corners' bits (u32).
pub fn corner_files(
    seed: u64,
    count: usize,
    told: impl Fn(usize, corners::Answer) -> corners::Answer,
) -> Vec<Vec<u8>> {
    let mut random = Random::new(seed);
    let mut files = Files::new(CORNERS);
    for number in 0..count {
        let case = corners::some(&mut random);
        let answer = told(number, corners::answer(&case));
        files.put(corner_record(&case, &answer));
    }
    files.finish()
}

fn corner_record(case: &corners::Case, answer: &corners::Answer) -> Record {
    let mut record = Record::default();
    record.floats(&case.center);
    record.floats(&case.size);
    record.floats(&case.rotation);
    record.bytes(&[case.horizontal, case.vertical, answer.refusal, 0]);
    record.answers(&answer.numbers);
    record.case();
    record
}

/// Answers that are not the Rust's in every fifth case: a number's last bit, or
/// the refusal where there is no number.
pub fn wrong_uvs(number: usize, mut answer: uvs::Answer) -> uvs::Answer {
    if number.is_multiple_of(5) {
        match answer.output.len() {
            0 => answer.refusal ^= 1,
            n => answer.output[number / 5 % n] ^= 1,
        }
    }
    answer
}

pub fn wrong_corners(number: usize, mut answer: corners::Answer) -> corners::Answer {
    match number % 10 {
        0 => answer.numbers[number / 10 % 8] ^= 1,
        5 => answer.refusal ^= 1,
        _ => {}
    }
    answer
}
