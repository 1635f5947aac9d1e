//! The sheet, and whether bytes break its layout (row 1), key rules apart.

use super::Name;
use super::bytes::{Reader, Writer};

pub const MOST_ANIMATIONS: usize = 8;
pub const MOST_CONTENTS: usize = 64;
pub const MOST_TARGETS: usize = 256;
pub const MOST_KEYS: usize = 2048;
pub const MOST_TEXTURES: usize = 64;
pub const LONGEST: usize = 31_724;

const SIZES: usize = 12;

#[derive(Clone, Debug, Default, PartialEq)]
pub struct Sheet {
    /// The sixth size.
    pub zero: u16,
    pub animations: Vec<Animation>,
    pub contents: Vec<Content>,
    pub targets: Vec<Target>,
    pub textures: Vec<Name>,
    pub frames: Vec<f32>,
    pub values: Vec<f32>,
    pub slopes: Vec<f32>,
}

#[derive(Clone, Copy, Debug, Default, PartialEq)]
pub struct Animation {
    pub frame_count: u16,
    pub looping: u8,
    pub next_present: u8,
    pub next: Name,
}

#[derive(Clone, Copy, Debug, Default, PartialEq)]
pub struct Content {
    pub animation: u8,
    pub kind: u8,
    pub zero: u16,
    pub name: Name,
}

#[derive(Clone, Copy, Debug, Default, PartialEq)]
pub struct Target {
    pub content: u16,
    pub layer: u8,
    pub raw: u8,
    pub code: [u8; 4],
    pub curve: u8,
    pub zero: u8,
    pub first_key: u16,
    pub key_count: u16,
}

/// How many bytes a sheet of these sizes is.
fn length([a, c, t, k, x]: [usize; 5]) -> usize {
    SIZES + 28 * a + 28 * c + 14 * t + 24 * x + 12 * k
}

impl Sheet {
    /// The sheet that the bytes are, or nothing where row 1 declines them.
    pub fn read(bytes: &[u8]) -> Option<Self> {
        if bytes.len() < SIZES {
            return None;
        }
        let mut reader = Reader::new(bytes);
        let [a, c, t, k, x, zero] = std::array::from_fn(|_| reader.u16());
        let [a, c, t, k, x] = [a, c, t, k, x].map(usize::from);
        let sizes_ok = (1..=MOST_ANIMATIONS).contains(&a)
            && c <= MOST_CONTENTS
            && t <= MOST_TARGETS
            && k <= MOST_KEYS
            && x <= MOST_TEXTURES
            && zero == 0;
        if !sizes_ok || bytes.len() != length([a, c, t, k, x]) {
            return None;
        }
        let mut sheet = Self {
            zero,
            animations: (0..a).map(|_| Animation::read(&mut reader)).collect(),
            contents: (0..c).map(|_| Content::read(&mut reader)).collect(),
            targets: (0..t).map(|_| Target::read(&mut reader)).collect(),
            textures: (0..x).map(|_| reader.array()).collect(),
            frames: (0..k).map(|_| reader.f32()).collect(),
            ..Self::default()
        };
        for _ in 0..k {
            sheet.values.push(reader.f32());
            sheet.slopes.push(reader.f32());
        }
        sheet.rows_ok().then_some(sheet)
    }

    /// The rules of the rows, the sizes being right.
    fn rows_ok(&self) -> bool {
        self.animations.iter().all(Animation::ok) && self.contents_ok() && self.targets_ok()
    }

    fn contents_ok(&self) -> bool {
        let mut earlier = 0;
        self.contents.iter().all(|content| {
            let never_falls = earlier <= content.animation;
            earlier = content.animation;
            never_falls
                && usize::from(content.animation) < self.animations.len()
                && content.kind <= 4
                && content.zero == 0
        })
    }

    fn targets_ok(&self) -> bool {
        let mut earlier = 0;
        let mut keys = 0;
        let rows_ok = self.targets.iter().all(|target| {
            let in_order = earlier <= target.content && usize::from(target.first_key) == keys;
            earlier = target.content;
            keys += usize::from(target.key_count);
            in_order
                && usize::from(target.content) < self.contents.len()
                && target.curve <= 2
                && target.zero == 0
        });
        rows_ok && keys == self.frames.len()
    }

    /// A, C, T, K and X.
    fn sizes(&self) -> [usize; 5] {
        [
            self.animations.len(),
            self.contents.len(),
            self.targets.len(),
            self.frames.len(),
            self.textures.len(),
        ]
    }

    /// How many bytes it is written in.
    pub fn length(&self) -> usize {
        length(self.sizes())
    }

    pub fn write(&self) -> Vec<u8> {
        let mut writer = Writer::default();
        self.sizes().iter().for_each(|&n| writer.u16(n as u16));
        writer.u16(self.zero);
        self.animations
            .iter()
            .for_each(|row| row.write(&mut writer));
        self.contents.iter().for_each(|row| row.write(&mut writer));
        self.targets.iter().for_each(|row| row.write(&mut writer));
        self.textures.iter().for_each(|name| writer.name(name));
        writer.floats(&self.frames);
        for (&value, &slope) in self.values.iter().zip(&self.slopes) {
            writer.floats(&[value, slope]);
        }
        writer.bytes
    }
}

impl Animation {
    fn read(reader: &mut Reader) -> Self {
        Self {
            frame_count: reader.u16(),
            looping: reader.u8(),
            next_present: reader.u8(),
            next: reader.array(),
        }
    }

    fn ok(&self) -> bool {
        self.looping <= 1
            && self.next_present <= 1
            && (self.next_present == 1 || self.next == [0; 24])
    }

    fn write(&self, writer: &mut Writer) {
        writer.u16(self.frame_count);
        writer.u8(self.looping);
        writer.u8(self.next_present);
        writer.name(&self.next);
    }
}

impl Content {
    fn read(reader: &mut Reader) -> Self {
        Self {
            animation: reader.u8(),
            kind: reader.u8(),
            zero: reader.u16(),
            name: reader.array(),
        }
    }

    fn write(&self, writer: &mut Writer) {
        writer.u8(self.animation);
        writer.u8(self.kind);
        writer.u16(self.zero);
        writer.name(&self.name);
    }
}

impl Target {
    fn read(reader: &mut Reader) -> Self {
        Self {
            content: reader.u16(),
            layer: reader.u8(),
            raw: reader.u8(),
            code: reader.array(),
            curve: reader.u8(),
            zero: reader.u8(),
            first_key: reader.u16(),
            key_count: reader.u16(),
        }
    }

    fn write(&self, writer: &mut Writer) {
        writer.u16(self.content);
        writer.u8(self.layer);
        writer.u8(self.raw);
        writer.bytes.extend(self.code);
        writer.u8(self.curve);
        writer.u8(self.zero);
        writer.u16(self.first_key);
        writer.u16(self.key_count);
    }
}
