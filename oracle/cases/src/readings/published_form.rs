//! A sheet's animation and a book as the published text holds them.

use crate::curves::Keys;
use crate::format::book::{Book, INFLUENCES_ALPHA, Material, NO_PARENT, VISIBLE};
use crate::format::sheet::{Sheet, Target};
use crate::format::text_of;
use crate::geometry::uvs::texture_srt;
use published::bflan::anim_info::{AnimContent, AnimInfo, AnimInfoType, PaneAnimInfo};
use published::bflan::targets::{AnimTarget, TargetIndex};
use published::bflyt::list::MaterialTextureSrt;
use published::bflyt::pane::{Pane, PaneFlags};
use published::drawing::{BflytSection, TexturedQuad};
use published::pane_tree::{PaneId, PaneNode, PaneTree};
use published::ui2d::types::{Vector2f, Vector3f};
use std::collections::HashMap;

/// An animation of the sheet. A texture's name is its row's number, so that an
/// override can be told even where two textures have one name.
pub fn animation(sheet: &Sheet, number: usize) -> PaneAnimInfo {
    let row = &sheet.animations[number];
    let contents = sheet.contents.iter().enumerate();
    PaneAnimInfo {
        frame_count: row.frame_count,
        is_looping: row.looping == 1,
        textures: (0..sheet.textures.len()).map(|i| i.to_string()).collect(),
        contents: contents
            .filter(|(_, content)| usize::from(content.animation) == number)
            .map(|(i, content)| AnimContent {
                name: text_of(&content.name).to_string(),
                anim_type: content.kind.into(),
                infos: infos(sheet, i),
            })
            .collect(),
    }
}

/// The targets of a content, each with a code of its own and so in an info of
/// its own.
fn infos(sheet: &Sheet, content: usize) -> Vec<AnimInfo> {
    let own = sheet.targets.iter();
    own.filter(|target| usize::from(target.content) == content)
        .map(|target| {
            let anim_type = AnimInfoType::from(u32::from_le_bytes(target.code));
            AnimInfo::Standard {
                anim_type,
                targets: vec![AnimTarget {
                    layer: target.layer,
                    target: TargetIndex::resolve(&anim_type, target.raw),
                    curve: keys_of(sheet, target).curve(),
                }],
            }
        })
        .collect()
}

/// The keys that a target owns.
pub fn keys_of(sheet: &Sheet, target: &Target) -> Keys {
    let rows = target.keys();
    Keys {
        kind: target.curve,
        frames: sheet.frames[rows.clone()].to_vec(),
        values: sheet.values[rows.clone()].to_vec(),
        slopes: sheet.slopes[rows].to_vec(),
    }
}

/// The panes by label, as the tree's map has them: a pane's number is its row.
pub fn labels(book: &Book) -> HashMap<String, PaneId> {
    let rows = book.panes.iter().enumerate();
    rows.map(|(row, pane)| (text_of(&pane.label).to_string(), PaneId(row as u32)))
        .collect()
}

pub fn pane(row: &crate::format::book::Pane) -> Pane {
    let [tx, ty, tz, rx, ry, rz, sx, sy, width, height] = row.floats;
    Pane {
        pane_flags: PaneFlags {
            is_visible: row.flags & VISIBLE != 0,
            influenced_alpha: row.flags & INFLUENCES_ALPHA != 0,
        },
        alpha: row.alpha,
        translation: Vector3f {
            x: tx,
            y: ty,
            z: tz,
        },
        rotation: Vector3f {
            x: rx,
            y: ry,
            z: rz,
        },
        scale: Vector2f::new(sx, sy),
        size: Vector2f::new(width, height),
    }
}

pub fn srts(material: &Material) -> [MaterialTextureSrt; 3] {
    material.srts.each_ref().map(texture_srt)
}

/// The number of a node that hangs below each pane and has no pane of its own.
/// The cascade hands it what it hands the pane's children, and it keeps that.
pub const LISTENER: PaneId = PaneId(u32::MAX);

pub fn tree(book: &Book) -> PaneTree {
    PaneTree {
        roots: children(book, NO_PARENT),
        label_map: labels(book),
        ..PaneTree::default()
    }
}

fn children(book: &Book, parent: u16) -> Vec<PaneNode> {
    let rows = book.panes.iter().enumerate();
    rows.filter(|(_, pane)| pane.parent == parent)
        .map(|(row, own)| {
            let mut below = children(book, row as u16);
            below.push(node(LISTENER, None, Vec::new()));
            node(PaneId(row as u32), Some(pane(own)), below)
        })
        .collect()
}

pub fn node(pane_idx: PaneId, base: Option<Pane>, children: Vec<PaneNode>) -> PaneNode {
    PaneNode {
        section: BflytSection { base },
        pane_idx,
        textured_quad: Some(TexturedQuad::default()),
        children,
        ..PaneNode::default()
    }
}
