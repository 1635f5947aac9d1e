//! The book, and whether bytes break its layout (row 2).

use super::Name;
use super::bytes::{Reader, Writer};

pub const MOST_PANES: usize = 64;
pub const MOST_MATERIALS: usize = 32;
pub const LONGEST: usize = 9_604;
pub const NO_PARENT: u16 = 65_535;

/// The bits of a pane's flags.
pub const VISIBLE: u8 = 1;
pub const INFLUENCES_ALPHA: u8 = 2;

#[derive(Clone, Debug, Default, PartialEq)]
pub struct Book {
    pub panes: Vec<Pane>,
    pub materials: Vec<Material>,
}

#[derive(Clone, Copy, Debug, PartialEq)]
pub struct Pane {
    pub label: Name,
    pub parent: u16,
    pub flags: u8,
    pub alpha: u8,
    pub horizontal: u8,
    pub vertical: u8,
    pub zero: u16,
    /// Translation x y z, rotation x y z, scale x y, size x y.
    pub floats: [f32; 10],
}

#[derive(Clone, Copy, Debug, PartialEq)]
pub struct Material {
    pub name: Name,
    pub textures: [Name; 3],
    /// Each: translate u, v, rotate, scale u, v.
    pub srts: [[f32; 5]; 3],
}

impl Book {
    /// The book that the bytes are, or nothing where row 2 declines them.
    pub fn read(bytes: &[u8]) -> Option<Self> {
        if bytes.len() < 4 {
            return None;
        }
        let mut reader = Reader::new(bytes);
        let p = usize::from(reader.u16());
        let m = usize::from(reader.u16());
        let sizes_ok = (1..=MOST_PANES).contains(&p) && m <= MOST_MATERIALS;
        if !sizes_ok || bytes.len() != 4 + 72 * p + 156 * m {
            return None;
        }
        let book = Self {
            panes: (0..p).map(|_| Pane::read(&mut reader)).collect(),
            materials: (0..m).map(|_| Material::read(&mut reader)).collect(),
        };
        book.rows_ok().then_some(book)
    }

    fn rows_ok(&self) -> bool {
        let labels: Vec<Name> = self.panes.iter().map(|pane| pane.label).collect();
        let names: Vec<Name> = self
            .materials
            .iter()
            .map(|material| material.name)
            .collect();
        self.panes
            .iter()
            .enumerate()
            .all(|(row, pane)| pane.ok(row))
            && self.materials.iter().all(Material::ok)
            && distinct_and_not_empty(&labels)
            && distinct_and_not_empty(&names)
    }

    pub fn write(&self) -> Vec<u8> {
        let mut writer = Writer::default();
        writer.u16(self.panes.len() as u16);
        writer.u16(self.materials.len() as u16);
        self.panes.iter().for_each(|pane| pane.write(&mut writer));
        self.materials
            .iter()
            .for_each(|material| material.write(&mut writer));
        writer.bytes
    }
}

fn distinct_and_not_empty(names: &[Name]) -> bool {
    names
        .iter()
        .enumerate()
        .all(|(row, name)| *name != [0; 24] && !names[..row].contains(name))
}

impl Pane {
    fn read(reader: &mut Reader) -> Self {
        Self {
            label: reader.array(),
            parent: reader.u16(),
            flags: reader.u8(),
            alpha: reader.u8(),
            horizontal: reader.u8(),
            vertical: reader.u8(),
            zero: reader.u16(),
            floats: reader.floats(),
        }
    }

    fn ok(&self, row: usize) -> bool {
        (self.parent == NO_PARENT || usize::from(self.parent) < row)
            && self.flags & !(VISIBLE | INFLUENCES_ALPHA) == 0
            && self.horizontal <= 2
            && self.vertical <= 2
            && self.zero == 0
            && self.floats.iter().all(|x| x.is_finite())
    }

    fn write(&self, writer: &mut Writer) {
        writer.name(&self.label);
        writer.u16(self.parent);
        writer.u8(self.flags);
        writer.u8(self.alpha);
        writer.u8(self.horizontal);
        writer.u8(self.vertical);
        writer.u16(self.zero);
        writer.floats(&self.floats);
    }
}

impl Material {
    fn read(reader: &mut Reader) -> Self {
        Self {
            name: reader.array(),
            textures: std::array::from_fn(|_| reader.array()),
            srts: std::array::from_fn(|_| reader.floats()),
        }
    }

    fn ok(&self) -> bool {
        self.srts.as_flattened().iter().all(|x| x.is_finite())
    }

    fn write(&self, writer: &mut Writer) {
        writer.name(&self.name);
        self.textures.iter().for_each(|name| writer.name(name));
        writer.floats(self.srts.as_flattened());
    }
}
