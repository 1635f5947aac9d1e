//! Where each pane is while the player shows a frame.

use dovebolt::{
    Corners, Pane, Player, Refusal, Transform, Vector2f, Vector3f, corners, rotate_point,
};

use super::menu::Menu;
use crate::common::named;

/// A pane that is shown, with its corners on a stage whose y goes down and its alpha under its parents.
pub struct Shown {
    pub pane: Pane,
    pub corners: Corners,
    pub alpha: f32,
}

/// What a pane hands its children.
struct Placed {
    center: Vector2f,
    scale: Vector2f,
    rotation: Vector3f,
}

const ROOT: Placed = Placed {
    center: Vector2f { x: 0.0, y: 0.0 },
    scale: Vector2f { x: 1.0, y: 1.0 },
    rotation: Vector3f {
        x: 0.0,
        y: 0.0,
        z: 0.0,
    },
};

/// Where a pane is under its parent. A layout's y goes up, so translations are taken downwards.
fn placed(own: &Transform, parent: &Placed) -> Result<Placed, Refusal> {
    let offset = Vector2f {
        x: own.translation.x * parent.scale.x,
        y: -own.translation.y * parent.scale.y,
    };
    Ok(Placed {
        center: rotate_point(offset, parent.center, parent.rotation)?,
        scale: Vector2f {
            x: own.scale.x * parent.scale.x,
            y: own.scale.y * parent.scale.y,
        },
        rotation: Vector3f {
            x: own.rotation.x + parent.rotation.x,
            y: own.rotation.y + parent.rotation.y,
            z: own.rotation.z + parent.rotation.z,
        },
    })
}

fn corners_of(pane: &Pane, own: &Transform, here: &Placed) -> Result<Corners, Refusal> {
    let size = Vector2f {
        x: own.size.x * here.scale.x,
        y: own.size.y * here.scale.y,
    };
    corners(
        here.center,
        size,
        pane.horizontal.number(),
        pane.vertical.number(),
        here.rotation,
    )
}

/// The panes that are shown, parents first. A failure names its pane: numbers and angles can be too large to be placed.
pub fn shown(player: &Player, menu: &Menu) -> Result<Vec<Shown>, String> {
    let (sheet, book, keys) = (menu.sheet.bytes(), menu.book.bytes(), &menu.keys);
    let cascade = player
        .cascade(sheet, book, keys)
        .map_err(|refusal| refusal.to_string())?;
    let mut all: Vec<Placed> = vec![];
    let mut shown = vec![];
    for (pane, cascaded) in menu.book.panes().zip(cascade) {
        let name = format!("pane {}", pane.number);
        let resolved = player.resolve_pane(sheet, book, keys, pane.number);
        let own = named(&name, resolved)?.transform;
        let parent = pane.parent.map_or(&ROOT, |p| &all[usize::from(p)]);
        let here = named(&name, placed(&own, parent))?;
        if cascaded.visible {
            shown.push(Shown {
                pane,
                corners: named(&name, corners_of(&pane, &own, &here))?,
                alpha: cascaded.alpha,
            });
        }
        all.push(here);
    }
    Ok(shown)
}
