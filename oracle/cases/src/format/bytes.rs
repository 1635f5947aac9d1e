//! Little-endian numbers in and out of bytes.

use super::Name;

/// Reads a row after the other; the caller has seen that the length is right.
pub struct Reader<'a> {
    rest: &'a [u8],
}

impl<'a> Reader<'a> {
    pub fn new(bytes: &'a [u8]) -> Self {
        Self { rest: bytes }
    }

    pub fn array<const N: usize>(&mut self) -> [u8; N] {
        let (first, rest) = self.rest.split_first_chunk().expect("within the length");
        self.rest = rest;
        *first
    }

    pub fn u8(&mut self) -> u8 {
        self.array::<1>()[0]
    }

    pub fn u16(&mut self) -> u16 {
        u16::from_le_bytes(self.array())
    }

    pub fn f32(&mut self) -> f32 {
        f32::from_le_bytes(self.array())
    }

    pub fn floats<const N: usize>(&mut self) -> [f32; N] {
        std::array::from_fn(|_| self.f32())
    }
}

#[derive(Default)]
pub struct Writer {
    pub bytes: Vec<u8>,
}

impl Writer {
    pub fn u8(&mut self, x: u8) {
        self.bytes.push(x);
    }

    pub fn u16(&mut self, x: u16) {
        self.bytes.extend(x.to_le_bytes());
    }

    pub fn f32(&mut self, x: f32) {
        self.bytes.extend(x.to_le_bytes());
    }

    pub fn floats(&mut self, floats: &[f32]) {
        floats.iter().for_each(|&x| self.f32(x));
    }

    pub fn name(&mut self, name: &Name) {
        self.bytes.extend(name);
    }
}
