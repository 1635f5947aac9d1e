//! Every problem that keeps a book from being built, with its row and in its words.

use dovebolt::{BookBuilder, MaterialBuilder, PaneBuilder, Problem, Row, Srt};

/// A book of good rows: two panes and a material.
fn good() -> BookBuilder {
    let mut book = BookBuilder::new();
    book.pane("Root");
    book.pane("Logo").parent("Root");
    book.material("Glow");
    book.build().unwrap();
    book
}

/// What is told of a third pane.
fn pane_told(label: &str, set: impl Fn(&mut PaneBuilder), problem: &str) {
    let mut book = good();
    set(book.pane(label));
    let error = book.build().unwrap_err();
    assert_eq!(error.row(), Row::Pane(2));
    assert_eq!(error.to_string(), format!("pane 2 ({label:?}): {problem}"));
}

/// What is told of a second material.
fn material_told(name: &str, set: impl Fn(&mut MaterialBuilder), place: &str, problem: &str) {
    let mut book = good();
    set(book.material(name));
    let error = book.build().unwrap_err();
    assert_eq!(error.row(), Row::Material(1));
    assert_eq!(
        error.to_string(),
        format!("material 1 ({name:?}){place}: {problem}")
    );
}

#[test]
fn no_pane() {
    let mut book = BookBuilder::new();
    book.material("Glow");
    let error = book.build().unwrap_err();
    assert_eq!(
        (error.row(), error.problem()),
        (Row::Book, &Problem::NoPane)
    );
}

#[test]
fn labels() {
    pane_told("", |_| {}, "the name is empty");
    pane_told("Menu\0", |_| {}, "the name has a zero byte");
    pane_told("Logo", |_| {}, "pane 1 has the same name");
    let long = "a label of 25 bytes: abcd";
    pane_told(long, |_| {}, "the name has 25 bytes, 24 at most fit");
}

#[test]
fn parents() {
    for parent in ["Menu", "Later", ""] {
        let set = |pane: &mut PaneBuilder| {
            pane.parent(parent);
        };
        let problem = format!("its parent {parent:?} is no earlier pane");
        pane_told("Menu", set, &problem);
    }
    let mut book = good();
    book.pane("Early").parent("Later");
    book.pane("Later");
    assert_eq!(book.build().unwrap_err().row(), Row::Pane(2));
}

#[test]
fn numbers_of_panes() {
    for (bad, word) in [
        (f32::NAN, "NaN"),
        (f32::INFINITY, "inf"),
        (f32::NEG_INFINITY, "-inf"),
    ] {
        for axis in 0..3 {
            let of = |n| if n == axis { bad } else { 1.0 };
            let translation = |pane: &mut PaneBuilder| {
                pane.translation(of(0), of(1), of(2));
            };
            pane_told(
                "Menu",
                translation,
                &format!("the translation is not finite: {word}"),
            );
            let rotation = |pane: &mut PaneBuilder| {
                pane.rotation(of(0), of(1), of(2));
            };
            pane_told(
                "Menu",
                rotation,
                &format!("the rotation is not finite: {word}"),
            );
        }
        for axis in 0..2 {
            let of = |n| if n == axis { bad } else { 1.0 };
            let scale = |pane: &mut PaneBuilder| {
                pane.scale(of(0), of(1));
            };
            pane_told("Menu", scale, &format!("the scale is not finite: {word}"));
            let size = |pane: &mut PaneBuilder| {
                pane.size(of(0), of(1));
            };
            pane_told("Menu", size, &format!("the size is not finite: {word}"));
        }
    }
}

#[test]
fn names_of_materials() {
    material_told("", |_| {}, "", "the name is empty");
    material_told("Glow", |_| {}, "", "material 0 has the same name");
    let textures = |material: &mut MaterialBuilder| {
        material.textures(["", "night\0", ""]);
    };
    let place = ", texture 1 (\"night\\0\")";
    material_told("M", textures, place, "the name has a zero byte");
}

#[test]
fn numbers_of_materials() {
    for layer in 0..3 {
        let set = |material: &mut MaterialBuilder| {
            let mut srts = [Srt::IDENTITY; 3];
            srts[layer].rotate = f32::NAN;
            material.srts(srts);
        };
        let problem = format!("the SRT of layer {layer} is not finite: NaN");
        material_told("M", set, "", &problem);
    }
}

/// A material may have a pane's name.
#[test]
fn panes_and_materials_apart() {
    let mut book = good();
    book.material("Logo");
    book.build().unwrap();
}
