//! The readings of document 01 from what the published text evaluates.

use super::reference::Reference;
use super::{
    Answer, Call, FILL_BITS, FILL_BYTE, One, Tick, Told, View, buffer_length, lent_length, table,
};
use crate::format::book::{Book, Material};
use crate::format::sheet::Sheet;
use crate::readings::published_form as form;
use crate::readings::whole::{self, MATERIAL_CHANNELS, PANE_CHANNELS};
use published::anim_state::AnimationState;
use published::pane_tree::PaneId;
use std::collections::HashMap;

/// A book as it is lent: its bytes, and what they are if they are good.
pub struct LentBook {
    pub bytes: Vec<u8>,
    pub good: Option<GoodBook>,
    /// P and M, which the outputs' lengths follow, of the book that was good.
    counts: (usize, usize),
}

pub struct GoodBook {
    pub rows: Book,
    labels: HashMap<String, PaneId>,
}

impl LentBook {
    pub fn new(book: &Book) -> Self {
        let mut lent = Self {
            bytes: Vec::new(),
            good: None,
            counts: (book.panes.len(), book.materials.len()),
        };
        lent.put(book.write());
        lent
    }

    /// Lends other bytes, which may be no book.
    pub fn put(&mut self, bytes: Vec<u8>) {
        self.good = Book::read(&bytes).map(|rows| GoodBook {
            labels: form::labels(&rows),
            rows,
        });
        if let Some(GoodBook { rows, .. }) = &self.good {
            self.counts = (rows.panes.len(), rows.materials.len());
        }
        self.bytes = bytes;
    }

    /// How many panes the outputs of the cascade are for.
    pub fn panes(&self) -> usize {
        self.counts.0
    }

    /// How many channels the outputs of a whole reading are for.
    pub fn channels(&self) -> usize {
        PANE_CHANNELS * self.counts.0 + MATERIAL_CHANNELS * self.counts.1
    }

    /// How long the output number `of` of a whole reading is lent.
    pub fn channels_lent(&self, of: u8, short: u8) -> usize {
        lent_length(self.channels(), 2, of, short)
    }

    /// The same of the cascade.
    pub fn panes_lent(&self, of: u8, short: u8) -> usize {
        lent_length(self.panes(), 3, of, short)
    }
}

/// A reading whose sheet, keys and player are in order: rows 2, 7 and 13, and
/// then what the published text reads.
pub fn answer(
    sheet: &Sheet,
    lent: &LentBook,
    reference: &Reference,
    view: View,
    call: &Call,
) -> Answer {
    let Some(book) = &lent.good else {
        return refused(sheet, lent, call, 2);
    };
    let refusal = table::reading_rows(&book.rows, call);
    if refusal != 0 {
        return refused(sheet, lent, call, refusal);
    }
    let state = reference.evaluate(view, &book.labels);
    Answer {
        refusal: 0,
        told: told(sheet, &book.rows, state, call),
    }
}

fn told(sheet: &Sheet, book: &Book, state: AnimationState, call: &Call) -> Told {
    match *call {
        Call::ReadPane { pane, .. } | Call::ResolvePane(pane) => {
            pane_told(book, &state, usize::from(pane), call)
        }
        Call::ReadMaterial { material, .. }
        | Call::ResolveSrt { material, .. }
        | Call::TextureName { material, .. } => {
            material_told(sheet, &book.materials[usize::from(material)], &state, call)
        }
        Call::ReadAll { .. } => {
            let whole::Reading { marks, numbers } = whole::reading(book, &state);
            Told::All { marks, numbers }
        }
        Call::Cascade { .. } => {
            let cascade = whole::cascade(book, state);
            Told::Cascade {
                visible: cascade.visible,
                alpha: cascade.alpha,
                influence: cascade.handed,
            }
        }
        _ => Told::Done,
    }
}

fn pane_told(book: &Book, state: &AnimationState, row: usize, call: &Call) -> Told {
    let pane = whole::pane(state, row);
    if let Call::ReadPane { channel, .. } = *call {
        let channel = usize::from(channel);
        return Told::One(pane_reading(channel, whole::pane_channels(&pane)[channel]));
    }
    let (visible, alpha) = whole::own_look(&book.panes[row], &pane);
    Told::Pane {
        visible,
        alpha,
        transform: whole::transform(&book.panes[row], &pane),
    }
}

fn material_told(sheet: &Sheet, row: &Material, state: &AnimationState, call: &Call) -> Told {
    let material = whole::material(state, row);
    match *call {
        Call::ReadMaterial { channel, .. } => {
            let channel = usize::from(channel);
            let read = whole::material_channels(&material)[channel];
            Told::One(material_reading(channel, read))
        }
        Call::ResolveSrt { layer, .. } => Told::Srt(whole::srt(row, &material, usize::from(layer))),
        Call::TextureName { slot, .. } => {
            let slot = usize::from(slot);
            let over = whole::texture_row(&material.texture_names[slot]);
            let name = over.map_or(row.textures[slot], |over| sheet.textures[over]);
            Told::Name(name.to_vec())
        }
        _ => Told::Done,
    }
}

/// Document 01, "Channels": visible is shown or hidden, all else of a pane a
/// number.
pub fn pane_reading(channel: usize, read: Option<f32>) -> One {
    const VISIBLE: usize = 10;
    match (read, channel) {
        (None, _) => One::Nothing,
        (Some(x), VISIBLE) => One::Shown(x == 1.0),
        (Some(x), _) => One::Number(crate::bits::bits_of(x)),
    }
}

/// Three texture rows after the layers' numbers, eight levels at the end.
pub fn material_reading(channel: usize, read: Option<f32>) -> One {
    match (read, channel) {
        (None, _) => One::Nothing,
        (Some(x), 15..=17) => One::Texture(x as u16),
        (Some(x), 22..) => One::Level(x as u8),
        (Some(x), _) => One::Number(crate::bits::bits_of(x)),
    }
}

/// What a refused call answers. The sheet is the loaded one, also where other bytes
/// are lent.
pub fn refused(sheet: &Sheet, book: &LentBook, call: &Call, refusal: u8) -> Answer {
    let told = match *call {
        Call::Tick { .. } => Told::Tick(Tick::Idle),
        Call::ReadPane { .. } | Call::ReadMaterial { .. } => Told::One(One::Nothing),
        Call::ReadAll { short } => Told::All {
            marks: vec![FILL_BYTE; book.channels_lent(1, short)],
            numbers: vec![FILL_BITS; book.channels_lent(2, short)],
        },
        Call::ResolvePane(_) => Told::Pane {
            visible: 0,
            alpha: 0,
            transform: [0; 10],
        },
        Call::ResolveSrt { .. } => Told::Srt([0; 5]),
        Call::TextureName { .. } | Call::NextName(_) => Told::Name(Vec::new()),
        Call::Cascade { short } => Told::Cascade {
            visible: vec![FILL_BYTE; book.panes_lent(1, short)],
            alpha: vec![FILL_BITS; book.panes_lent(2, short)],
            influence: vec![FILL_BITS; book.panes_lent(3, short)],
        },
        Call::Edit { .. } | Call::Drag { .. } | Call::DropDrag => Told::Edited { unchanged: false },
        Call::Play(_)
        | Call::Pose(..)
        | Call::Undo
        | Call::Redo
        | Call::OpenDrag { .. }
        | Call::AbandonDrag => Told::Done,
        Call::Save { short } => Told::Saved(vec![FILL_BYTE; buffer_length(sheet.length(), short)]),
    };
    Answer { refusal, told }
}

/// The 24-byte field of the name that follows an animation; empty from A up.
pub fn next_name(reference: &Reference, animation: u16) -> Told {
    let field = reference.next_name(animation);
    Told::Name(field.map_or(Vec::new(), |field| field.to_vec()))
}
