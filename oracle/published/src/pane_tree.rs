//! The tree of panes. The corners, the UVs and the cascade are the published
//! text; the node and the tree have the fields that this text names.

use crate::anim_state::{AnimationState, MaterialAnimation, PaneAnimation, transform_uv_srt};
use crate::bflyt::list::MaterialTextureSrt;
use crate::bflyt::pane::{HorizontalPosition, TextureUv, VerticalPosition};
use crate::drawing::{BflytSection, Quad, TexturedQuad};
use crate::sine::StandIn;
use crate::ui2d::types::{Vector2f, Vector3f};
use std::collections::HashMap;
use std::ops::BitOr;

include!(concat!(env!("OUT_DIR"), "/pane_tree.rs"));

#[derive(Clone, Default)]
pub struct PaneNode {
    pub section: BflytSection,
    pub visible: bool,
    pub parts_source: Option<String>,
    pub pane_idx: PaneId,
    pub plain_quad: Quad,
    pub textured_quad: Option<TexturedQuad>,
    pub animation: PaneAnimation,
    pub window_quads: Vec<TexturedQuad>,
    pub glyph_quads: Vec<TexturedQuad>,
    pub dirty: DirtyFlags,
    pub children: Vec<PaneNode>,
    pub parts_children: Vec<PaneNode>,
}

#[derive(Default)]
pub struct PaneTree {
    pub roots: Vec<PaneNode>,
    pub material_animations: HashMap<String, MaterialAnimation>,
    pub animation_binding_revision: u64,
    pub group: Group,
    pub label_map: HashMap<String, PaneId>,
}

impl PaneTree {
    /// Stand-in: `resolve_rect` and with it every position is left out.
    pub fn recompute_dirty(&mut self) {}

    /// Stand-in: groups are left out.
    pub fn descendants(&self, _: PaneId) -> Vec<PaneId> {
        unimplemented!("groups are left out")
    }
}

/// Stand-in: groups are left out, so this one has no children.
#[derive(Default)]
pub struct Group {
    pub group_name: String,
    pub child_names: Vec<String>,
    pub children: Vec<Group>,
}

/// Stand-in for the published flags, which a macro of another crate makes.
#[derive(Clone, Copy, Debug, Default)]
pub struct DirtyFlags(u8);

impl DirtyFlags {
    pub const TRANSFORM: Self = Self(0x01);
    pub const MATERIAL: Self = Self(0x02);
    pub const VERTICES: Self = Self(0x04);

    pub fn empty() -> Self {
        Self(0)
    }

    pub fn is_empty(&self) -> bool {
        self.0 == 0
    }

    pub fn insert(&mut self, other: Self) {
        self.0 |= other.0;
    }

    pub fn contains(&self, other: Self) -> bool {
        self.0 & other.0 == other.0
    }
}

impl BitOr for DirtyFlags {
    type Output = Self;

    fn bitor(self, other: Self) -> Self {
        Self(self.0 | other.0)
    }
}
