//! Layouts: a texture's SRT as published, panes as document 01 gives them.

pub mod list {
    use serde::{Deserialize, Serialize};
    include!(concat!(env!("OUT_DIR"), "/list.rs"));
}

/// Stand-in for pane.rs, which is not published: what document 01, "Kept and
/// left out", says that we use of it, and the fields that the kept text names.
pub mod pane {
    use crate::ui2d::types::{Vector2f, Vector3f};

    #[derive(Clone, Copy, Debug, PartialEq)]
    pub enum HorizontalPosition {
        Center,
        Left,
        Right,
    }

    #[derive(Clone, Copy, Debug, PartialEq)]
    pub enum VerticalPosition {
        Center,
        Top,
        Bottom,
    }

    #[derive(Clone, Copy, Debug, Default)]
    pub struct TextureUv {
        pub top_left: Vector2f,
        pub top_right: Vector2f,
        pub bottom_left: Vector2f,
        pub bottom_right: Vector2f,
    }

    #[derive(Clone, Copy, Debug, Default)]
    pub struct Pane {
        pub pane_flags: PaneFlags,
        pub alpha: u8,
        pub translation: Vector3f,
        pub rotation: Vector3f,
        pub scale: Vector2f,
        pub size: Vector2f,
    }

    #[derive(Clone, Copy, Debug, Default)]
    pub struct PaneFlags {
        pub is_visible: bool,
        pub influenced_alpha: bool,
    }
}
