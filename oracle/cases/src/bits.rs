//! Answers are compared by their bits; all NaNs count as one.

/// The bits of an answer, with one pattern for every NaN.
pub fn bits_of(x: f32) -> u32 {
    if x.is_nan() { 0x7FC0_0000 } else { x.to_bits() }
}

/// Values at the edges of the format and of document 01's rules.
pub const EDGES: [f32; 24] = [
    0.0,
    -0.0,
    f32::from_bits(1),           // the smallest subnormal
    f32::from_bits(0x8000_0001), // and below zero
    f32::from_bits(0x007F_FFFF), // the largest subnormal
    f32::MIN_POSITIVE,
    0.01,
    0.5,
    0.9,
    f32::from_bits(0x3F7F_FFFF), // just below 1
    1.0,
    -1.0,
    1.5,
    254.5,
    255.0,
    255.5,
    65_535.0,
    65_536.0,
    16_777_215.0,
    16_777_216.0,   // 2^24
    9.223_372e18,   // 2^63
    1.844_674_4e19, // 2^64
    f32::MAX,
    f32::MIN,
];
