//! Each rule of the book's layout, broken alone in a book that is good.

use super::Changed;
use crate::format::book::{Book, Material, NO_PARENT, Pane};
use crate::format::{Name, name};

const LAYOUT: u8 = 2;

/// A good book of three panes and two materials.
pub fn base() -> Book {
    Book {
        panes: vec![
            pane(name("root"), NO_PARENT),
            pane(name("a name of 24 bytes, one."), 0),
            pane(name("a name of 24 bytes, one?"), 1),
        ],
        materials: vec![material(name("root")), material(name("metal"))],
    }
}

fn pane(label: Name, parent: u16) -> Pane {
    Pane {
        label,
        parent,
        flags: 3,
        alpha: 255,
        horizontal: 2,
        vertical: 2,
        zero: 0,
        floats: [
            0.0,
            -0.0,
            1.0,
            -90.0,
            45.0,
            3600.0,
            1.0,
            1.0,
            64.0,
            f32::MAX,
        ],
    }
}

fn material(name: Name) -> Material {
    Material {
        name,
        textures: [[0; 24]; 3],
        srts: [[0.0, 0.0, 0.0, 1.0, 1.0]; 3],
    }
}

/// What is changed in a book, and whether it breaks the layout.
type Edit = (&'static str, fn(&mut Book), bool);

const EDITS: [Edit; 27] = [
    ("nothing", |_| (), false),
    ("no pane", |b| b.panes.clear(), true),
    ("no material", |b| b.materials.clear(), false),
    ("64 panes", |b| fill_panes(b, 64), false),
    ("65 panes", |b| fill_panes(b, 65), true),
    ("32 materials", |b| fill_materials(b, 32), false),
    ("33 materials", |b| fill_materials(b, 33), true),
    ("row 0 is its own parent", |b| b.panes[0].parent = 0, true),
    ("a row is its own parent", |b| b.panes[2].parent = 2, true),
    ("a parent is a later row", |b| b.panes[1].parent = 2, true),
    ("a parent is no row", |b| b.panes[1].parent = 65_534, true),
    ("two roots", |b| b.panes[1].parent = NO_PARENT, false),
    ("no flag", |b| b.panes[1].flags = 0, false),
    ("flag bit 2", |b| b.panes[1].flags = 4, true),
    ("flag bit 7", |b| b.panes[1].flags = 131, true),
    ("alpha 0", |b| b.panes[1].alpha = 0, false),
    ("horizontal origin 3", |b| b.panes[2].horizontal = 3, true),
    ("vertical origin 3", |b| b.panes[2].vertical = 3, true),
    ("a pane's zero is 1", |b| b.panes[0].zero = 1, true),
    ("a pane's zero is 256", |b| b.panes[0].zero = 256, true),
    ("an empty label", |b| b.panes[2].label = [0; 24], true),
    (
        "a label of a last byte alone",
        |b| b.panes[2].label = last_byte(),
        false,
    ),
    (
        "two labels alike",
        |b| b.panes[2].label = b.panes[1].label,
        true,
    ),
    (
        "first and last label alike",
        |b| b.panes[2].label = b.panes[0].label,
        true,
    ),
    (
        "an empty material name",
        |b| b.materials[1].name = [0; 24],
        true,
    ),
    (
        "two material names alike",
        |b| b.materials[1].name = b.materials[0].name,
        true,
    ),
    (
        "texture names alike",
        |b| b.materials[1].textures = [name("red"); 3],
        false,
    ),
];

const NOT_FINITE: [u32; 4] = [0x7F80_0000, 0xFF80_0000, 0x7FC0_0000, 0xFF80_0001];

/// Every edit of the base, and the base with a number not finite or cut short.
pub fn all() -> Vec<Changed> {
    let mut all: Vec<Changed> = EDITS
        .iter()
        .map(|&(what, edit, breaks)| edited(what.to_string(), edit, breaks))
        .collect();
    for x in NOT_FINITE.map(f32::from_bits) {
        for i in 0..10 {
            let edit = |b: &mut Book| b.panes[i % 3].floats[i] = x;
            all.push(edited(format!("a pane's float {i} is {x:?}"), edit, true));
        }
        for i in 0..15 {
            let edit = |b: &mut Book| b.materials[i % 2].srts[i / 5][i % 5] = x;
            all.push(edited(
                format!("a material's float {i} is {x:?}"),
                edit,
                true,
            ));
        }
    }
    let good = base().write();
    for length in 0..good.len() {
        all.push(changed(
            format!("cut to {length}"),
            good[..length].to_vec(),
            true,
        ));
    }
    all.push(changed(
        "a byte more".to_string(),
        [&good[..], &[0]].concat(),
        true,
    ));
    all
}

fn edited(what: String, edit: impl Fn(&mut Book), breaks: bool) -> Changed {
    let mut book = base();
    edit(&mut book);
    changed(what, book.write(), breaks)
}

fn changed(what: String, bytes: Vec<u8>, breaks: bool) -> Changed {
    Changed {
        what,
        bytes,
        refusal: if breaks { LAYOUT } else { 0 },
    }
}

fn last_byte() -> Name {
    let mut label = [0; 24];
    label[23] = 1;
    label
}

fn fill_panes(book: &mut Book, count: usize) {
    for i in book.panes.len()..count {
        book.panes.push(pane(name(&format!("pane {i}")), NO_PARENT));
    }
}

fn fill_materials(book: &mut Book, count: usize) {
    for i in book.materials.len()..count {
        book.materials
            .push(material(name(&format!("material {i}"))));
    }
}
