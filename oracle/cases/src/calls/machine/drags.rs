//! The plain machine's drag (document 02, "Dragging a key").

use super::{Edit, Machine};
use crate::calls::readings::LentBook;
use crate::calls::{Answer, Call, Request, Told, player, table};

/// An open drag.
#[derive(Clone, Copy, Debug)]
pub struct Drag {
    /// "the animation it was opened on"
    animation: u16,
    track: u16,
    key: u16,
    /// The key at opening.
    start: [u32; 3],
    /// "the last accepted request"
    last: Option<Request>,
}

impl Drag {
    fn edit(&self, request: Request) -> Edit {
        Edit {
            animation: self.animation,
            track: self.track,
            key: self.key,
            request,
        }
    }

    /// The edit that it makes.
    pub fn last(&self) -> Option<Edit> {
        self.last.map(|request| self.edit(request))
    }

    /// What a player carries.
    pub fn carried(&self) -> player::Drag {
        player::Drag {
            open: true,
            moved: self.last.is_some(),
            track: self.track,
            key: self.key,
            start: self.start,
        }
    }
}

impl Machine {
    /// "Add open, drag, drop and abandon for one key of the active animation".
    pub(super) fn open_drag(
        &mut self,
        call: &Call,
        book: &LentBook,
        track: u16,
        key: u16,
    ) -> Answer {
        let refusal = self.opening_rows(track, key);
        self.unless(refusal, call, book, |m| {
            m.drag = Some(Drag {
                animation: m.view.selection,
                track,
                key,
                start: m.numbers(track, key),
                last: None,
            });
            Told::Done
        })
    }

    /// "Drags make key edits on that key in the animation it was opened on, even if
    /// another, or none, is active by then".
    pub(super) fn drag(&mut self, call: &Call, book: &LentBook, request: Request) -> Answer {
        let refusal = match self.drag {
            None => table::drag_rows(false),
            Some(drag) => self.request_rows(&drag.edit(request)),
        };
        self.unless(refusal, call, book, |m| {
            let drag = m.drag.as_mut().expect("row 15");
            drag.last = Some(request);
            let edit = drag.edit(request);
            let unchanged = m.make_last(edit);
            m.make_again();
            Told::Edited { unchanged }
        })
    }

    /// "Drop leaves one standing edit, the last accepted request"; "with no accepted
    /// drag it leaves none and changes no count, reach or redo"; "A drag that drops on
    /// its starting bits is unchanged too".
    pub(super) fn drop_drag(&mut self) -> Told {
        let drag = self.drag.take().expect("row 15");
        let moved = self.numbers(drag.track, drag.key) != drag.start;
        let edit = drag.last().filter(|_| moved);
        if let Some(edit) = edit {
            self.append(edit);
        }
        self.make_again();
        Told::Edited {
            unchanged: edit.is_none(),
        }
    }

    /// "Abandon puts the key back, counts nothing and keeps reach and redo."
    pub(super) fn abandon_drag(&mut self) -> Told {
        self.drag = None;
        self.make_all();
        Told::Done
    }
}
