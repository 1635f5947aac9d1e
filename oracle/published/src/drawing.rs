//! Stand-in for what is drawn. A quad keeps the alpha and the visibility that
//! the cascade hands it, so that they can be read back.

use crate::anim_state::{MaterialAnimation, PaneAnimation};
use crate::bflyt::pane::Pane;

/// A section with a pane, or one without: the cascade passes through both.
#[derive(Clone, Default)]
pub struct BflytSection {
    pub base: Option<Pane>,
}

impl BflytSection {
    pub fn get_base_pane(&self) -> Option<&Pane> {
        self.base.as_ref()
    }

    pub fn section_color(&self) -> [f32; 4] {
        [1.0; 4]
    }
}

#[derive(Clone, Default)]
pub struct Quad {
    pub color: [f32; 4],
}

#[derive(Clone, Default)]
pub struct TexturedQuad {
    pub base_appearance: Appearance,
    pub alpha: f32,
    pub visible: bool,
}

#[derive(Clone, Default)]
pub struct Appearance {
    pub material_name: String,
}

impl TexturedQuad {
    pub fn apply_animation(
        &mut self,
        _: &PaneAnimation,
        _: Option<&MaterialAnimation>,
        alpha: f32,
        visible: bool,
    ) {
        self.alpha = alpha;
        self.visible = visible;
    }
}
