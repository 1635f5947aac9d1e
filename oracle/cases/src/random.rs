//! A small generator of numbers (splitmix64): the same seed gives the same
//! cases on every machine.

use crate::bits::EDGES;

pub struct Random {
    state: u64,
}

impl Random {
    pub fn new(seed: u64) -> Self {
        Self { state: seed }
    }

    /// Another generator, which takes no number from this one.
    pub fn beside(&self) -> Self {
        Self { state: !self.state }
    }

    pub fn word(&mut self) -> u64 {
        self.state = self.state.wrapping_add(0x9E37_79B9_7F4A_7C15);
        let mut z = self.state;
        z = (z ^ (z >> 30)).wrapping_mul(0xBF58_476D_1CE4_E5B9);
        z = (z ^ (z >> 27)).wrapping_mul(0x94D0_49BB_1331_11EB);
        z ^ (z >> 31)
    }

    /// A number below `n`, which is not 0.
    pub fn below(&mut self, n: usize) -> usize {
        (self.word() % n as u64) as usize
    }

    /// True once in `n` times.
    pub fn once_in(&mut self, n: usize) -> bool {
        self.below(n) == 0
    }

    pub fn pick<T: Copy>(&mut self, from: &[T]) -> T {
        from[self.below(from.len())]
    }

    /// Any finite f32, each pattern as likely as another.
    pub fn finite(&mut self) -> f32 {
        loop {
            let x = f32::from_bits(self.word() as u32);
            if x.is_finite() {
                return x;
            }
        }
    }

    /// A number in -n..n with three binary places, as an artist's are.
    pub fn tame(&mut self, n: usize) -> f32 {
        self.below(16 * n) as f32 / 8.0 - n as f32
    }

    /// A finite number: at an edge, as an artist's, or any.
    pub fn number(&mut self) -> f32 {
        match self.below(3) {
            0 => self.pick(&EDGES),
            1 => self.tame(512),
            _ => self.finite(),
        }
    }
}
