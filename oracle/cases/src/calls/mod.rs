//! Lists of calls (document 01, "Playing and editing" and "What a call
//! declines", with the calls that document 02 adds). What a call means is the published text's (`reference`); the
//! plain machine (`machine`) and the player with its lent keys (`held`) are
//! written from document 01 and decline by its table (`table`).

pub mod alone;
pub mod drags;
pub mod ends;
pub mod held;
pub mod machine;
pub mod player;
pub mod readings;
pub mod reference;
pub mod short;
pub mod some;
pub mod spoil;
pub mod stored;
pub mod table;
pub mod text;
pub mod unchanged;
pub mod views;
pub mod walk;

use crate::format::Name;

/// The number that selects nothing.
pub const NONE: u16 = 65_535;

/// What stands in an output before a call: a refused one leaves it.
pub const FILL_BYTE: u8 = 0xA5;
pub const FILL_BITS: u32 = 0x42A5_A5A5;

/// How long the output number `of` is lent, the first being 1, of `outputs` that
/// should be `count` long.
pub fn lent_length(count: usize, outputs: u8, of: u8, short: u8) -> usize {
    let longer = usize::from(short == outputs + of);
    count - usize::from(short == of) + longer
}

/// How long the buffer of a save is lent, where the sheet is `count` long.
pub fn buffer_length(count: usize, short: u8) -> usize {
    match short {
        3 => 0,
        _ => lent_length(count, 1, 1, short),
    }
}

/// A call: what it takes, player, keys, sheet and book apart.
#[derive(Clone, Copy, Debug)]
pub enum Call {
    Play(u16),
    Pose(u16, f32),
    Tick {
        dt: f32,
        fps: f32,
    },
    Edit {
        track: u16,
        key: u16,
        request: Request,
    },
    Undo,
    Redo,
    OpenDrag {
        track: u16,
        key: u16,
    },
    Drag {
        frame: f32,
        value: f32,
    },
    DropDrag,
    AbandonDrag,
    ReadPane {
        pane: u16,
        channel: u16,
    },
    ReadMaterial {
        material: u16,
        channel: u16,
    },
    /// 1: the marks are one short, 2: the numbers; 3 and 4: one long.
    ReadAll {
        short: u8,
    },
    ResolvePane(u16),
    ResolveSrt {
        material: u16,
        layer: u16,
    },
    TextureName {
        material: u16,
        slot: u16,
    },
    /// 1: visible is one short, 2: alpha, 3: influence; 4 to 6: one long.
    Cascade {
        short: u8,
    },
    NextName(u16),
    /// 1: the buffer is one short, 2: one long, 3: empty.
    Save {
        short: u8,
    },
}

/// What is asked of a key: a frame and a value, or a slope.
#[derive(Clone, Copy, Debug)]
pub enum Request {
    Key { frame: f32, value: f32 },
    Slope(f32),
}

/// What a call answers. Floats are bits, all NaNs one; a refused call tells
/// nothing, zeros, an empty name, and its outputs as they were.
#[derive(Clone, Debug, PartialEq)]
pub struct Answer {
    pub refusal: u8,
    pub told: Told,
}

impl Answer {
    /// What an accepted save wrote.
    pub fn saved(&self) -> Option<&[u8]> {
        match &self.told {
            Told::Saved(bytes) if self.refusal == 0 => Some(bytes),
            _ => None,
        }
    }
}

#[derive(Clone, Debug, PartialEq)]
pub enum Told {
    /// A call that answers with its refusal alone.
    Done,
    /// An edit, a drag or a drop.
    Edited {
        unchanged: bool,
    },
    Tick(Tick),
    One(One),
    All {
        marks: Vec<u8>,
        numbers: Vec<u32>,
    },
    Pane {
        visible: u8,
        alpha: u32,
        transform: [u32; 10],
    },
    Srt([u32; 5]),
    Name(Vec<u8>),
    Cascade {
        visible: Vec<u8>,
        alpha: Vec<u32>,
        influence: Vec<u32>,
    },
    /// The buffer of a save.
    Saved(Vec<u8>),
}

#[derive(Clone, Copy, Debug, PartialEq)]
pub enum Tick {
    Idle,
    Running,
    Ended,
    /// Ended with a next name: the text that the published tick returned, as the
    /// field of 24 bytes.
    Next(Name),
}

impl Tick {
    /// The number of its kind.
    pub fn number(&self) -> u8 {
        match self {
            Tick::Idle => 0,
            Tick::Running => 1,
            Tick::Ended => 2,
            Tick::Next(_) => 3,
        }
    }
}

/// A single reading.
#[derive(Clone, Copy, Debug, PartialEq)]
pub enum One {
    Nothing,
    Number(u32),
    Shown(bool),
    Texture(u16),
    Level(u8),
}

/// What is selected and shown.
#[derive(Clone, Copy, Debug)]
pub struct View {
    pub selection: u16,
    pub playing: bool,
    pub preview: bool,
    pub frame: f32,
}

impl View {
    /// Nothing selected, frame +0, not playing, preview off.
    pub const FRESH: Self = Self {
        selection: NONE,
        playing: false,
        preview: false,
        frame: 0.0,
    };

    /// What the readings read: nothing without a selection or a preview.
    pub fn active(&self) -> Option<(usize, f32)> {
        let shown = self.preview && self.selection != NONE;
        shown.then_some((usize::from(self.selection), self.frame))
    }
}

impl Call {
    /// The number of its kind.
    pub fn code(&self) -> u8 {
        match self {
            Call::Play(_) => 0,
            Call::Pose(..) => 1,
            Call::Tick { .. } => 2,
            Call::Edit {
                request: Request::Key { .. },
                ..
            } => 3,
            Call::Edit {
                request: Request::Slope(_),
                ..
            } => 4,
            Call::Undo => 5,
            Call::Redo => 6,
            Call::ReadPane { .. } => 7,
            Call::ReadMaterial { .. } => 8,
            Call::ReadAll { .. } => 9,
            Call::ResolvePane(_) => 10,
            Call::ResolveSrt { .. } => 11,
            Call::TextureName { .. } => 12,
            Call::Cascade { .. } => 13,
            Call::NextName(_) => 14,
            Call::Save { .. } => 15,
            Call::OpenDrag { .. } => 16,
            Call::Drag { .. } => 17,
            Call::DropDrag => 18,
            Call::AbandonDrag => 19,
        }
    }

    /// Whether the call takes the keys: all but play, pose, tick and the name.
    pub fn takes_keys(&self) -> bool {
        !self.shows() && !matches!(self, Call::NextName(_))
    }

    /// Whether the call may move keys, journal, counts or drag.
    pub fn edits(&self) -> bool {
        matches!(
            self,
            Call::Edit { .. }
                | Call::Undo
                | Call::Redo
                | Call::OpenDrag { .. }
                | Call::Drag { .. }
                | Call::DropDrag
                | Call::AbandonDrag
        )
    }

    /// Whether the call may move the view.
    pub fn shows(&self) -> bool {
        matches!(self, Call::Play(_) | Call::Pose(..) | Call::Tick { .. })
    }

    /// Whether the call is a reading, which takes the book too.
    pub fn takes_book(&self) -> bool {
        self.takes_keys() && !self.edits() && !matches!(self, Call::Save { .. })
    }
}
