//! The player that a caller holds: its view, its counts, its journal and its drag,
//! each number as the interface has it. Row n % 128 of the journal belongs to
//! standing edit number n.

use super::{NONE, View};
use crate::bits::bits_of;

/// How many edits a journal holds.
pub const ROWS: usize = 128;

/// Floats are bits, all NaNs one, so that two players are compared as they are.
#[derive(Clone, Debug, PartialEq)]
pub struct Player {
    pub selection: u16,
    pub playing: bool,
    pub preview: bool,
    pub frame: u32,
    pub reach: u64,
    pub redo: u64,
    pub accepted: u64,
    pub undone: u64,
    pub redone: u64,
    pub standing: u64,
    pub journal: Vec<Entry>,
    pub drag: Drag,
}

/// An edit's key, and its frame, value and slope before and after it.
#[derive(Clone, Copy, Debug, Default, PartialEq)]
pub struct Entry {
    pub track: u16,
    pub key: u16,
    pub before: [u32; 3],
    pub after: [u32; 3],
}

/// A drag's key, and its frame, value and slope at opening; `moved` once a drag was
/// accepted. Closed, all is 0.
#[derive(Clone, Copy, Debug, Default, PartialEq)]
pub struct Drag {
    pub open: bool,
    pub moved: bool,
    pub track: u16,
    pub key: u16,
    pub start: [u32; 3],
}

impl Player {
    pub fn fresh() -> Self {
        Self {
            selection: NONE,
            playing: false,
            preview: false,
            frame: 0,
            reach: 0,
            redo: 0,
            accepted: 0,
            undone: 0,
            redone: 0,
            standing: 0,
            journal: vec![Entry::default(); ROWS],
            drag: Drag::default(),
        }
    }

    pub fn view(&self) -> View {
        View {
            selection: self.selection,
            playing: self.playing,
            preview: self.preview,
            frame: f32::from_bits(self.frame),
        }
    }

    pub fn set_view(&mut self, view: View) {
        self.selection = view.selection;
        self.playing = view.playing;
        self.preview = view.preview;
        self.frame = bits_of(view.frame);
    }

    /// The row of standing edit number n.
    pub fn row(n: u64) -> usize {
        (n % ROWS as u64) as usize
    }

    /// The entry that an undo takes.
    pub fn undo_entry(&self) -> Entry {
        self.journal[Self::row(self.standing - 1)]
    }

    /// The entry that a redo takes.
    pub fn redo_entry(&self) -> Entry {
        self.journal[Self::row(self.standing)]
    }

    pub fn edited(&mut self, entry: Entry) {
        self.journal[Self::row(self.standing)] = entry;
        self.reach = (self.reach + 1).min(ROWS as u64);
        self.redo = 0;
        self.accepted += 1;
        self.standing += 1;
    }

    /// Opens a drag of a key, which is these numbers now.
    pub fn opened(&mut self, track: u16, key: u16, start: [u32; 3]) {
        self.drag = Drag {
            open: true,
            moved: false,
            track,
            key,
            start,
        };
    }

    /// Closes the drag: whether it is unchanged, with none accepted or the key `now` as
    /// it was at opening. Else it is an edit from the one to the other.
    pub fn dropped(&mut self, now: [u32; 3]) -> bool {
        let drag = std::mem::take(&mut self.drag);
        let unchanged = !drag.moved || drag.start == now;
        if !unchanged {
            self.edited(Entry {
                track: drag.track,
                key: drag.key,
                before: drag.start,
                after: now,
            });
        }
        unchanged
    }

    pub fn undid(&mut self) {
        self.reach -= 1;
        self.redo += 1;
        self.undone += 1;
        self.standing -= 1;
    }

    pub fn redid(&mut self) {
        self.reach += 1;
        self.redo -= 1;
        self.redone += 1;
        self.standing += 1;
    }
}
