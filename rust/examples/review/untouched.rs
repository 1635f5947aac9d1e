//! The page's part on what is proved untouched.

use std::fmt::Write;

use dovebolt::{Animation, BookView, Pane};

use crate::html;
use crate::pair::Pair;
use crate::panes;

/// Panes and materials by whether some animation touches them.
pub struct Sides {
    pub touched_panes: Vec<u16>,
    pub panes: Vec<u16>,
    pub touched_materials: Vec<u16>,
    pub materials: Vec<u16>,
}

pub fn sides(pair: &Pair) -> Sides {
    let book = pair.book.bytes();
    let pane = |n: &u16| pair.touched.iter().any(|t| t.pane(*n).any());
    let material = |n: &u16| {
        let mut all = pair.touched.iter();
        all.any(|t| t.material_channels(book, *n).next().is_some())
    };
    let (touched_panes, panes) = pair.book.panes().map(|p| p.number).partition(pane);
    let (touched_materials, materials) =
        pair.book.materials().map(|m| m.number).partition(material);
    Sides {
        touched_panes,
        panes,
        touched_materials,
        materials,
    }
}

/// The animations in which nothing is touched.
pub fn still(pair: &Pair) -> Vec<Animation> {
    let animations = pair.sheet.animations();
    animations
        .filter(|a| !pair.touched(a.number).any())
        .collect()
}

/// The panes above that may carry one along, in any animation.
fn carriers(pair: &Pair, pane: u16) -> Vec<String> {
    let all = pair
        .touched
        .iter()
        .flat_map(|t| panes::carriers(pair.book, t, pane));
    let mut all: Vec<Pane> = all.collect();
    all.sort_by_key(|pane| pane.number);
    all.dedup_by_key(|pane| pane.number);
    all.iter().map(|pane| html::name(&pane.label)).collect()
}

fn pane_item(pair: &Pair, pane: &Pane) -> String {
    let mut out = format!(
        "<li>{} <span class=\"number\">pane {}</span>",
        html::name(&pane.label),
        pane.number
    );
    let carriers = carriers(pair, pane.number);
    if !carriers.is_empty() {
        let _ = write!(out, ", carried by {}", html::list(&carriers));
    }
    out + "</li>\n"
}

fn panes_part(pair: &Pair, sides: &Sides) -> String {
    let mut out = format!(
        "<h3 id=\"untouched-panes\">{}</h3>\n",
        html::count(sides.panes.len(), "pane", "panes")
    );
    if sides.panes.is_empty() {
        return out + "<p>Every pane is touched.</p>\n";
    }
    out += "<p>Each has the same translation, rotation, scale, size, visible and alpha, the same corner colours, and the same \
        visible and alpha under its parents, in every animation and at every frame.</p>\n";
    let panes: Vec<Pane> = sides
        .panes
        .iter()
        .filter_map(|n| pair.book.pane(*n))
        .collect();
    if panes
        .iter()
        .any(|pane| !carriers(pair, pane.number).is_empty())
    {
        out += "<p>One that is <em>carried</em> is placed under a pane that the edits can move: its own numbers stay, and it is \
            drawn where that pane takes it.</p>\n";
    }
    let items: String = panes.iter().map(|pane| pane_item(pair, pane)).collect();
    out + "<ul class=\"names\">\n" + &items + "</ul>\n"
}

fn materials_part(book: BookView, sides: &Sides) -> String {
    let mut out = format!(
        "<h3 id=\"untouched-materials\">{}</h3>\n",
        html::count(sides.materials.len(), "material", "materials")
    );
    if sides.materials.is_empty() {
        let why = if sides.touched_materials.is_empty() {
            "The book has no material."
        } else {
            "Every material is touched."
        };
        return out + &format!("<p>{why}</p>\n");
    }
    out += "<p>Every channel of each reads the same, in every animation and at every frame.</p>\n<ul class=\"names\">\n";
    for material in sides.materials.iter().filter_map(|n| book.material(*n)) {
        let _ = writeln!(
            out,
            "<li>{} <span class=\"number\">material {}</span></li>",
            html::name(&material.name),
            material.number
        );
    }
    out + "</ul>\n"
}

fn animations_part(pair: &Pair) -> String {
    let still = still(pair);
    let mut out = format!(
        "<h3 id=\"untouched-animations\">{}</h3>\n",
        html::count(still.len(), "animation", "animations")
    );
    if still.is_empty() {
        return out + "<p>Something is touched in every animation.</p>\n";
    }
    out += "<p>Every pane and every material is untouched throughout.</p>\n<ul class=\"names\">\n";
    for animation in still {
        let frames = html::count(usize::from(animation.frames), "frame", "frames");
        let _ = writeln!(
            out,
            "<li>animation {} <span class=\"number\">{frames}</span></li>",
            animation.number
        );
    }
    out + "</ul>\n"
}

pub fn section(pair: &Pair, sides: &Sides) -> String {
    format!(
        "<section aria-labelledby=\"untouched\">\n<h2 id=\"untouched\">Proved untouched</h2>\n{}{}{}</section>\n",
        panes_part(pair, sides),
        materials_part(pair.book, sides),
        animations_part(pair)
    )
}
