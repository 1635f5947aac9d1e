//! Many books, built by chance: each is accepted, and its view tells the rows that were asked for.

#[path = "common/random.rs"]
mod random;

use dovebolt::{
    BookBuilder, BookView, Horizontal, Material, MaterialBuilder, Pane, PaneBuilder, Srt,
    Transform, Vector2f, Vector3f, Vertical,
};
use random::Random;

const BOOKS: u64 = 200;

fn vector2(random: &mut Random) -> Vector2f {
    let (x, y) = (random.finite(), random.finite());
    Vector2f { x, y }
}

fn vector3(random: &mut Random) -> Vector3f {
    let (Vector2f { x, y }, z) = (vector2(random), random.finite());
    Vector3f { x, y, z }
}

/// What was asked of a pane: its parent, visible, influences alpha, alpha, origins and transform.
type AskedPane = (
    Option<u16>,
    [bool; 2],
    u8,
    (Horizontal, Vertical),
    Transform,
);

fn ask_pane(random: &mut Random, row: u16) -> AskedPane {
    let parent = (row > 0 && random.below(3) > 0).then(|| random.below(row.into()) as u16);
    let flags = [random.below(2) == 1, random.below(2) == 1];
    let origins = (
        random.one_of(&[Horizontal::Center, Horizontal::Left, Horizontal::Right]),
        random.one_of(&[Vertical::Center, Vertical::Top, Vertical::Bottom]),
    );
    let transform = Transform {
        translation: vector3(random),
        rotation: vector3(random),
        scale: vector2(random),
        size: vector2(random),
    };
    (parent, flags, random.below(256) as u8, origins, transform)
}

fn label(row: u16) -> String {
    format!("pane {row}")
}

fn set(pane: &mut PaneBuilder, asked: &AskedPane) {
    let (parent, [visible, influences], alpha, (horizontal, vertical), transform) = *asked;
    let Transform {
        translation,
        rotation,
        scale,
        size,
    } = transform;
    if let Some(parent) = parent {
        pane.parent(&label(parent));
    }
    pane.visible(visible)
        .influences_alpha(influences)
        .alpha(alpha)
        .origins(horizontal, vertical)
        .translation(translation.x, translation.y, translation.z)
        .rotation(rotation.x, rotation.y, rotation.z)
        .scale(scale.x, scale.y)
        .size(size.x, size.y);
}

fn told(pane: &Pane) -> AskedPane {
    let flags = [pane.visible, pane.influences_alpha];
    let origins = (pane.horizontal, pane.vertical);
    (pane.parent, flags, pane.alpha, origins, pane.transform)
}

type AskedMaterial = ([&'static str; 3], [Srt; 3]);

fn ask_material(random: &mut Random, material: &mut MaterialBuilder) -> AskedMaterial {
    let textures = [(); 3].map(|_| random.one_of(&["", "day", "a name of 24 bytes: abcd"]));
    let srts = [(); 3].map(|_| Srt {
        translate: vector2(random),
        rotate: random.finite(),
        scale: vector2(random),
    });
    material.textures(textures).srts(srts);
    (textures, srts)
}

#[test]
fn many_books() {
    for seed in 0..BOOKS {
        let random = &mut Random::new(seed);
        let mut book = BookBuilder::new();
        let (mut panes, mut materials) = (vec![], vec![]);
        for row in 0..1 + random.below(64) as u16 {
            let asked = ask_pane(random, row);
            set(book.pane(&label(row)), &asked);
            panes.push(asked);
        }
        for row in 0..random.below(33) {
            materials.push(ask_material(
                random,
                book.material(&format!("material {row}")),
            ));
        }
        let bytes = book.build().unwrap();
        let book = BookView::of(&bytes).unwrap();
        assert_eq!(Vec::from_iter(book.panes().map(|p| told(&p))), panes);
        assert!(book.panes().all(|p| p.label.text() == label(p.number)));
        assert_eq!(book.materials().len(), materials.len());
        for (row, (textures, srts)) in book.materials().zip(materials) {
            let Material { number, name, .. } = row;
            assert_eq!(name.text(), format!("material {number}"));
            assert_eq!(
                (row.textures.map(|t| t.to_string()), row.srts),
                (textures.map(String::from), srts)
            );
        }
    }
}
