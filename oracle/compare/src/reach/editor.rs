//! A list of edits by the proved library.

use super::Stage;
use super::menu::{Menu, arrays_of};
use super::met::Met;
use cases::calls::{Call, Request};
use cases::format::load::Arrays;
use cases::random::Random;
use cases::reach::Place;
use cases::reach::some::{self, Now};
use dovebolt::{Keys, Player, Refusal};
use std::rc::Rc;

pub struct Editor {
    player: Player,
    keys: Keys,
}

impl Editor {
    pub fn load(menu: &Menu) -> Self {
        let (player, keys) = Player::load(&menu.sheet_bytes).expect("a good sheet");
        Self { player, keys }
    }

    /// The keys and everything that is read with them; of the same keys that is known.
    pub fn stage(&self, menu: &Menu, known: Option<&Stage>) -> Stage {
        let keys = arrays_of(&self.keys);
        let same = known.filter(|known| same(&known.keys, &keys));
        Stage {
            read: match same {
                Some(known) => known.read.clone(),
                None => Rc::new(menu.read(&self.keys)),
            },
            keys,
        }
    }

    /// Makes a random call. Nothing where it is declined; no kind where it edits nothing,
    /// as the opening of a drag.
    pub fn step(&mut self, random: &mut Random, menu: &Menu) -> Option<(Call, Option<Met>)> {
        let dragged = self.player.dragging().map(|drag| Place {
            track: usize::from(drag.track),
            key: usize::from(drag.key),
        });
        let now = Now {
            sheet: &menu.sheet,
            book: &menu.book,
            keys: &arrays_of(&self.keys),
            dragged,
            reach: self.player.reach(),
            redo: self.player.redoable(),
        };
        let call = some::step(random, &now)?;
        let kind = self.make(menu, &call).ok()?;
        Some((call, kind))
    }

    fn make(&mut self, menu: &Menu, call: &Call) -> Result<Option<Met>, Refusal> {
        let s = &menu.sheet_bytes[..];
        if let Call::Edit { track, .. } | Call::OpenDrag { track, .. } = *call {
            let content = menu.sheet.targets[usize::from(track)].content;
            let animation = menu.sheet.contents[usize::from(content)].animation;
            self.player.pose(s, Some(animation.into()), 0.0)?;
        }
        let (player, keys) = (&mut self.player, &mut self.keys);
        let kind = match *call {
            Call::Edit {
                track,
                key,
                request: Request::Key { frame, value },
            } => {
                player.key_edit(s, keys, track, key, frame, value)?;
                Met::KeyEdit
            }
            Call::Edit {
                track,
                key,
                request: Request::Slope(slope),
            } => {
                player.slope_edit(s, keys, track, key, slope)?;
                Met::SlopeEdit
            }
            Call::Undo => {
                player.undo(s, keys)?;
                Met::Undo
            }
            Call::Redo => {
                player.redo(s, keys)?;
                Met::Redo
            }
            Call::OpenDrag { track, key } => {
                player.open_drag(s, keys, track, key)?;
                return Ok(None);
            }
            Call::Drag { frame, value } => {
                player.drag(s, keys, frame, value)?;
                Met::Drag
            }
            Call::DropDrag => {
                player.drop_drag(s, keys)?;
                Met::Drop
            }
            Call::AbandonDrag => {
                player.abandon_drag(s, keys)?;
                Met::Abandon
            }
            _ => panic!("{call:?} is no edit"),
        };
        Ok(Some(kind))
    }
}

fn same(a: &Arrays, b: &Arrays) -> bool {
    let bits = |array: &[f32]| array.iter().map(|x| x.to_bits()).collect::<Vec<_>>();
    a.iter().zip(b).all(|(a, b)| bits(a) == bits(b))
}
