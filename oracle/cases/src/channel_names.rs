//! Channels by name, in document 01's order. A name is made from the published
//! enum's own text, as Rust prints a variant: `LeftTopRed` is `left_top_red`.
//! Where document 01 has a word of its own (visible, alpha, texture, indirect,
//! alpha reference, black and white), or a layer or slot goes with the name,
//! that is added here.

use published::bflan::targets::{
    IndirectSrtTarget, MaterialColorTarget, PaneSrtTarget, TextureSrtTarget, VertexColorTarget,
};
use std::fmt::Debug;

/// The words of a variant's name, in small letters.
fn words(variant: impl Debug) -> String {
    let mut words = String::new();
    for letter in format!("{variant:?}").chars() {
        if letter.is_uppercase() && !words.is_empty() {
            words.push('_');
        }
        words.extend(letter.to_lowercase());
    }
    words
}

/// The channel that a raw number of FLVC reaches.
pub fn corner_or_alpha(raw: u8) -> String {
    match VertexColorTarget::from(raw) {
        VertexColorTarget::PaneAlpha => "alpha".to_string(),
        corner => words(corner),
    }
}

/// A pane's: SRT 10, visible, alpha, 16 corner colours.
pub fn of_panes() -> Vec<String> {
    let mut names: Vec<String> = (0..10).map(|raw| words(PaneSrtTarget::from(raw))).collect();
    names.extend(["visible", "alpha"].map(String::from));
    names.extend((0..16).map(corner_or_alpha));
    names
}

/// A material's: 3 layers of five, 3 textures, indirect rotation and two
/// scales, alpha reference, 8 colours (black first).
pub fn of_materials() -> Vec<String> {
    let mut names = Vec::new();
    for layer in 0..3 {
        let srt = (0..5).map(|raw| words(TextureSrtTarget::from(raw)));
        names.extend(srt.map(|word| format!("layer_{layer}_{word}")));
    }
    names.extend((0..3).map(|slot| format!("texture_{slot}")));
    let indirect = (0..3).map(|raw| words(IndirectSrtTarget::from(raw)));
    names.extend(indirect.map(|word| format!("indirect_{word}")));
    names.push("alpha_reference".to_string());
    let colour = |raw| words(MaterialColorTarget::from(raw));
    names.extend((0..4).map(|raw| colour(raw).replace("buffer", "black")));
    names.extend((4..8).map(|raw| colour(raw).replace("constant0", "white")));
    names
}
