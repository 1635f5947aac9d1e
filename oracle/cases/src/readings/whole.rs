//! The Rust's answers to a whole reading, to resolving and to the cascade, laid
//! out as document 01 says.

use super::Case;
use super::published_form as form;
use crate::bits::bits_of;
use crate::format::book::{self, Book};
use crate::format::text_of;
use published::anim_state::{AnimationState, MaterialAnimation, PaneAnimation};
use published::pane_tree::{PaneId, PaneNode, PaneTree};

pub const PANE_CHANNELS: usize = 28;
pub const MATERIAL_CHANNELS: usize = 30;

/// Marks (0 or 1) and numbers (bits, 0 where unmarked) of every channel.
#[derive(Clone, Debug, Default, PartialEq)]
pub struct Reading {
    pub marks: Vec<u8>,
    pub numbers: Vec<u32>,
}

/// Each row's visibility, alpha, and what it hands its children.
#[derive(Clone, Debug, Default, PartialEq)]
pub struct Cascade {
    pub visible: Vec<u8>,
    pub alpha: Vec<u32>,
    pub handed: Vec<u32>,
}

pub fn state(case: &Case) -> AnimationState {
    match case.active {
        Some((number, frame)) => state_at(case, number, frame),
        None => AnimationState::default(),
    }
}

/// The state of another animation or at another frame.
pub fn state_at(case: &Case, number: usize, frame: f32) -> AnimationState {
    let info = form::animation(&case.sheet, number);
    AnimationState::evaluate(&info, frame, &form::labels(&case.book))
}

pub fn reading(book: &Book, state: &AnimationState) -> Reading {
    let mut reading = Reading::default();
    for row in 0..book.panes.len() {
        let channels = pane_channels(&pane(state, row));
        channels.iter().for_each(|&c| reading.push(c));
    }
    for row in &book.materials {
        let channels = material_channels(&material(state, row));
        channels.iter().for_each(|&c| reading.push(c));
    }
    reading
}

impl Reading {
    fn push(&mut self, channel: Option<f32>) {
        self.marks.push(channel.is_some() as u8);
        self.numbers.push(channel.map_or(0, bits_of));
    }
}

/// A pane's overrides: the tree's map gives a pane its row as its number.
pub fn pane(state: &AnimationState, row: usize) -> PaneAnimation {
    let id = PaneId(row as u32);
    state.panes.get(&id).cloned().unwrap_or_default()
}

/// A material's overrides.
pub fn material(state: &AnimationState, row: &book::Material) -> MaterialAnimation {
    let own = state.materials.get(text_of(&row.name));
    own.cloned().unwrap_or_default()
}

/// SRT 10, visible, alpha, 16 corner colours.
pub fn pane_channels(pane: &PaneAnimation) -> Vec<Option<f32>> {
    let mut channels = Vec::with_capacity(PANE_CHANNELS);
    channels.extend(pane.translation);
    channels.extend(pane.rotation);
    channels.extend(pane.scale);
    channels.extend(pane.size);
    channels.push(pane.visible.map(|shown| if shown { 1.0 } else { 0.0 }));
    channels.push(pane.alpha);
    channels.extend(pane.corner_colors.as_flattened());
    channels
}

/// Three layers of five, three textures, indirect rotation and two scales,
/// alpha reference, eight colours (black first).
pub fn material_channels(material: &MaterialAnimation) -> Vec<Option<f32>> {
    let mut channels = Vec::with_capacity(MATERIAL_CHANNELS);
    for srt in &material.texture_srts {
        channels.extend([
            srt.translate_u,
            srt.translate_v,
            srt.rotate,
            srt.scale_u,
            srt.scale_v,
        ]);
    }
    let rows = material.texture_names.iter();
    channels.extend(rows.map(|name| texture_row(name).map(|row| row as f32)));
    channels.push(material.indirect_rotation);
    channels.extend(material.indirect_scale);
    channels.push(material.alpha_reference);
    let colours = material.black_color.iter().chain(&material.white_color);
    channels.extend(colours.map(|level| level.map(f32::from)));
    channels
}

/// The sheet's row that overrides a slot; a texture's name is its row's number.
pub fn texture_row(name: &Option<String>) -> Option<usize> {
    name.as_ref().map(|row| row.parse().expect("a row"))
}

/// A pane's ten numbers, resolved.
pub fn transform(row: &book::Pane, pane: &PaneAnimation) -> [u32; 10] {
    let to = pane.resolve_transform(&form::pane(row));
    let (translation, rotation) = (to.translation, to.rotation);
    [
        translation.x,
        translation.y,
        translation.z,
        rotation.x,
        rotation.y,
        rotation.z,
        to.scale.x,
        to.scale.y,
        to.size.x,
        to.size.y,
    ]
    .map(bits_of)
}

/// A layer's five numbers, resolved.
pub fn srt(row: &book::Material, material: &MaterialAnimation, layer: usize) -> [u32; 5] {
    let to = material.texture_srts[layer].resolve(&form::srts(row)[layer]);
    [
        to.translate_u,
        to.translate_v,
        to.rotate,
        to.scale_u,
        to.scale_v,
    ]
    .map(bits_of)
}

/// A pane's own visibility and alpha: what the Rust's inner `update` gives a
/// root without children, which is handed true and 1.0.
pub fn own_look(row: &book::Pane, pane: &PaneAnimation) -> (u8, u32) {
    let mut root = form::node(PaneId(0), Some(form::pane(row)), Vec::new());
    root.animation = pane.clone();
    let mut tree = PaneTree {
        roots: vec![root],
        ..PaneTree::default()
    };
    tree.update_animation_visuals();
    (tree.roots[0].visible as u8, alpha_of(&tree.roots[0]))
}

pub fn cascade(book: &Book, state: AnimationState) -> Cascade {
    let mut tree = form::tree(book);
    tree.set_animation(state);
    tree.update_animation_visuals();
    let rows = book.panes.len();
    let mut cascade = Cascade {
        visible: vec![0; rows],
        alpha: vec![0; rows],
        handed: vec![0; rows],
    };
    tree.roots.iter().for_each(|root| keep(root, &mut cascade));
    cascade
}

/// Keeps what the cascade left in a node and in those below it.
fn keep(node: &PaneNode, cascade: &mut Cascade) {
    let row = node.pane_idx.0 as usize;
    cascade.visible[row] = node.visible as u8;
    cascade.alpha[row] = alpha_of(node);
    for child in &node.children {
        if child.pane_idx == form::LISTENER {
            cascade.handed[row] = alpha_of(child);
        } else {
            keep(child, cascade);
        }
    }
}

fn alpha_of(node: &PaneNode) -> u32 {
    bits_of(node.textured_quad.as_ref().expect("a quad").alpha)
}
