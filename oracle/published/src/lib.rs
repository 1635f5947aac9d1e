//! The published Rust, compiled from its own text over small stand-ins.
//!
//! Published, and compiled as it is: `bflan::{curves, targets, anim_info}`,
//! `ui2d::userdata`. Published, with sine and cosine replaced: `anim_state`.
//! Published in part: `pane_tree`, `bflyt::list`, `ui::timeline` (build.rs says
//! which parts). All else is a stand-in, as small as the text allows.
//!
//! The text is of two crates, `nnbfl` and a preview that uses it. They are one
//! here, under both names. It comes in by `include!` and not as a file of a
//! module, so that no formatter touches it.

extern crate derives as num_enum;
extern crate derives as serde;
extern crate self as nnbfl;

pub mod archive;
pub mod bflan;
pub mod bflyt;
pub mod core;
pub mod drawing;
pub mod sine;
pub mod ui2d;

#[allow(clippy::new_without_default)] // of the published text
pub mod anim_state {
    use crate::sine::StandIn;
    include!(concat!(env!("OUT_DIR"), "/anim_state.rs"));
}

pub mod pane_tree;

pub mod ui {
    pub mod timeline {
        include!(concat!(env!("OUT_DIR"), "/timeline.rs"));
    }
}
