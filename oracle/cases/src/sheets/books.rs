//! Good books.

use super::names;
use crate::format::Name;
use crate::format::book::{Book, MOST_MATERIALS, MOST_PANES, Material, NO_PARENT, Pane};
use crate::random::Random;

#[derive(Clone, Copy, Debug)]
pub struct Size {
    pub panes: usize,
    pub materials: usize,
}

pub const FULL: Size = Size {
    panes: MOST_PANES,
    materials: MOST_MATERIALS,
};

/// Some size, most often a small one.
pub fn size(random: &mut Random) -> Size {
    if random.once_in(64) {
        return FULL;
    }
    Size {
        panes: 1 + random.below(6),
        materials: random.below(4),
    }
}

pub fn book(random: &mut Random, size: Size) -> Book {
    let labels = names::distinct(random, size.panes);
    let names = names::distinct(random, size.materials);
    Book {
        panes: (0..size.panes)
            .map(|row| pane(random, row, labels[row]))
            .collect(),
        materials: names
            .into_iter()
            .map(|name| material(random, name))
            .collect(),
    }
}

fn pane(random: &mut Random, row: usize, label: Name) -> Pane {
    let parent = if row == 0 || random.once_in(4) {
        NO_PARENT
    } else {
        random.below(row) as u16
    };
    let some = random.below(256) as u8;
    Pane {
        label,
        parent,
        flags: random.below(4) as u8,
        alpha: random.pick(&[0, 1, 127, 128, 255, some]),
        horizontal: random.below(3) as u8,
        vertical: random.below(3) as u8,
        zero: 0,
        floats: std::array::from_fn(|_| random.number()),
    }
}

fn material(random: &mut Random, name: Name) -> Material {
    Material {
        name,
        textures: std::array::from_fn(|i| crate::format::name(&format!("texture_{i}"))),
        srts: std::array::from_fn(|_| std::array::from_fn(|_| random.number())),
    }
}
