//! The frames of an animation, without those in which nothing changes.

use dovebolt::{Cascaded, Channels, Player, Refusal};

use crate::changes::{self, Change};
use crate::common::named;
use crate::drawing::menu::Menu;
use crate::drawing::stage::{self, Shown};

/// A part of the strip.
pub enum Part {
    Drawn(Drawn),
    /// Frames in which everything is as in the one that was drawn last.
    Still {
        first: usize,
        last: usize,
    },
}

/// A frame that is drawn.
pub struct Drawn {
    pub frame: usize,
    pub shown: Vec<Shown>,
    pub changes: Vec<Change>,
}

/// Everything that the library says of a frame.
struct Moment {
    channels: Channels,
    cascade: Vec<Cascaded>,
}

impl Moment {
    fn of(player: &Player, menu: &Menu) -> Result<Moment, Refusal> {
        let (sheet, book, keys) = (menu.sheet.bytes(), menu.book.bytes(), &menu.keys);
        Ok(Moment {
            channels: player.read_all(sheet, book, keys)?,
            cascade: player.cascade(sheet, book, keys)?,
        })
    }

    /// Bit for bit, so that a NaN is as itself and −0 is not as +0.
    fn same(&self, other: &Moment) -> bool {
        let numbers = |m: &Moment| {
            m.channels
                .numbers
                .iter()
                .map(|x| x.to_bits())
                .collect::<Vec<_>>()
        };
        let panes = |m: &Moment| {
            let bits = |c: &Cascaded| (c.visible, c.alpha.to_bits(), c.influence.to_bits());
            m.cascade.iter().map(bits).collect::<Vec<_>>()
        };
        self.channels.marks == other.channels.marks
            && numbers(self) == numbers(other)
            && panes(self) == panes(other)
    }
}

/// The parts of an animation's strip. A failure names its frame.
pub fn parts(player: &mut Player, menu: &Menu) -> Result<Vec<Part>, String> {
    let mut parts = vec![];
    let mut before: Option<Moment> = None;
    for frame in 0..usize::from(menu.animation.frames.max(1)) {
        let name = format!("frame {frame}");
        let (sheet, number) = (menu.sheet.bytes(), menu.animation.number);
        named(&name, player.pose(sheet, Some(number), frame as f32))?;
        let now = named(&name, Moment::of(player, menu))?;
        if before.as_ref().is_some_and(|b| now.same(b)) {
            match parts.last_mut() {
                Some(Part::Still { last, .. }) => *last = frame,
                _ => parts.push(Part::Still {
                    first: frame,
                    last: frame,
                }),
            }
            continue;
        }
        let channels_before = before.as_ref().map(|b| &b.channels);
        parts.push(Part::Drawn(Drawn {
            frame,
            shown: named(&name, stage::shown(player, menu))?,
            changes: changes::changes(menu, channels_before, &now.channels),
        }));
        before = Some(now);
    }
    Ok(parts)
}
