//! Every short list over the calls of a drag, an undo, a redo, an edit and a play,
//! which meet at the same keys; and what the drags of a run came to.

use super::player::Drag;
use super::{Answer, Call, NONE, Request, Told, table};
use crate::format::book::Book;
use crate::format::sheet::Sheet;
use crate::sheets::damage;

/// How long the lists are. Shorter ones are their beginnings.
pub const LENGTH: u32 = 5;

const CALLS: usize = 9;

/// How many lists there are of a case.
pub const COUNT: usize = CALLS.pow(LENGTH);

/// Where the lists are made: a key to drag, and what is asked of it.
pub struct Case {
    pub what: &'static str,
    pub sheet: Sheet,
    pub book: Book,
    /// The calls before each list, all of them accepted.
    pub start: Vec<Call>,
    calls: [Call; CALLS],
    /// Where the key can be read after each list.
    seen: Call,
}

/// A key that is dragged: its animation, track and number, where it is loaded, two
/// drags, an edit that meets them, and a call that ends the animation's turn.
struct Dragged {
    what: &'static str,
    animation: u16,
    track: u16,
    key: u16,
    loaded: (f32, f32),
    drags: [(f32, f32); 2],
    edit: Call,
    other: Call,
    seen: f32,
}

/// A key with room on both sides, the last one, one without room until an edit makes
/// some, one of a Step and one of a Constant: freshly loaded, and with edits that
/// stand and one that can be made again. Where there is room, one of the drags leads
/// to where the key is then.
pub fn cases() -> Vec<Case> {
    let plain = damage::base_pair();
    let mut tight = plain.clone();
    tight.0.frames[..3].fill(1.0);
    let mixed = [key(0, 1, 6.0, 2.0), slope(0, 1, 3.0), key(0, 0, 1.0, 2.0)];
    let slopes = [slope(0, 0, 1.0), slope(0, 1, 2.0), slope(0, 2, 3.0)];
    let steps = [
        key(1, 0, 0.5, 2.0),
        key(1, 1, 2.5, 0.0),
        key(1, 2, 3.5, 4.0),
    ];
    let constants = [0, 1, 2].map(|n| key(2, n, 0.5, f32::from(n) + 8.0));
    // The second drag is clamped to where the key is loaded; the edit moves its lower
    // bound.
    let room = Dragged {
        what: "room",
        animation: 0,
        track: 0,
        key: 1,
        loaded: (8.0 - 0.01, -1.0),
        drags: [(6.0, 2.0), (20.0, -1.0)],
        edit: key(0, 0, 5.5, 0.5),
        other: Call::Play(1),
        seen: 3.0,
    };
    let inactive = Dragged {
        what: "nothing active",
        other: Call::Pose(NONE, 0.0),
        ..room
    };
    // Drags keep the slope that the edit gives.
    let last = Dragged {
        what: "the last key",
        key: 2,
        loaded: (9.5, 1.0),
        drags: [(9.5, 1.0), (-3.0, 2.0)],
        edit: slope(0, 2, 5.0),
        seen: 7.0,
        ..room
    };
    // Row 9 declines both drags until the edit has moved the key before.
    let no_room = Dragged {
        what: "no room",
        loaded: (1.0, -2.5),
        drags: [(0.5, 2.0), (1.0, 3.0)],
        edit: key(0, 0, 0.25, 1.0),
        seen: 0.375,
        ..room
    };
    // The first drag rounds to the value that is loaded.
    let step = Dragged {
        what: "a Step",
        track: 1,
        loaded: (1.5, 3.0),
        drags: [(1.5, 2.5), (2.5, -0.4)],
        edit: key(1, 0, 1.0, 7.0),
        seen: 2.0,
        ..room
    };
    // The edit is of the dragged key itself, and changes the sign of its zero.
    let constant = Dragged {
        what: "a Constant",
        animation: 1,
        track: 2,
        loaded: (0.0, -0.0),
        drags: [(5.0, 9.0), (-1.0, -0.0)],
        edit: key(2, 1, 3.0, 0.0),
        other: Call::Play(0),
        seen: 1.0,
        ..room
    };
    let all = [
        (room, &plain, mixed),
        (inactive, &plain, mixed),
        (last, &plain, mixed),
        (no_room, &tight, slopes),
        (step, &plain, steps),
        (constant, &plain, constants),
    ];
    let all = all.into_iter();
    all.flat_map(|(dragged, pair, edits)| dragged.cases(pair, &edits))
        .collect()
}

impl Dragged {
    /// Freshly loaded, and with edits, the last of them undone.
    fn cases(&self, (sheet, book): &(Sheet, Book), edits: &[Call]) -> [Case; 2] {
        let mut sheet = sheet.clone();
        let place = table::place(&sheet, self.track, self.key);
        (sheet.frames[place], sheet.values[place]) = self.loaded;
        let play = vec![Call::Play(self.animation)];
        let edited = [&play[..], edits, &[Call::Undo]].concat();
        [play, edited].map(|start| Case {
            what: self.what,
            sheet: sheet.clone(),
            book: book.clone(),
            start,
            calls: self.calls(),
            seen: Call::Pose(self.animation, self.seen),
        })
    }

    fn calls(&self) -> [Call; CALLS] {
        let [one, other] = self.drags.map(|(frame, value)| Call::Drag { frame, value });
        let open = Call::OpenDrag {
            track: self.track,
            key: self.key,
        };
        [
            open,
            one,
            other,
            Call::DropDrag,
            Call::AbandonDrag,
            Call::Undo,
            Call::Redo,
            self.edit,
            self.other,
        ]
    }
}

fn key(track: u16, key: u16, frame: f32, value: f32) -> Call {
    let request = Request::Key { frame, value };
    Call::Edit {
        track,
        key,
        request,
    }
}

fn slope(track: u16, key: u16, slope: f32) -> Call {
    let request = Request::Slope(slope);
    Call::Edit {
        track,
        key,
        request,
    }
}

impl Case {
    /// The list of a number: the calls before it, its own, and then all channels are
    /// read where the key is seen, and the sheet is saved.
    pub fn list(&self, number: usize) -> Vec<Call> {
        let place = |i: u32| number / CALLS.pow(i) % CALLS;
        let mut list = self.start.clone();
        list.extend((0..LENGTH).map(|i| self.calls[place(i)]));
        list.extend([
            self.seen,
            Call::ReadAll { short: 0 },
            Call::Save { short: 0 },
        ]);
        list
    }
}

/// What no drag of a key without room comes to: the clamp keeps it from where it was.
pub const BACK: &str = "dropped on its starting bits";

/// How many calls met each state of a drag.
#[derive(Clone, Copy, Debug, Default)]
pub struct Drags {
    opened: u64,
    dragged: u64,
    dropped: u64,
    /// Dropped on its starting bits.
    back: u64,
    /// Dropped with no accepted drag.
    untouched: u64,
    /// Without an accepted drag, and with one.
    abandoned: [u64; 2],
    /// Accepted while one was open.
    moves: u64,
    readings: u64,
    saves: u64,
    /// Declined by row 15 while one was open.
    edits: u64,
    takes: u64,
    openings: u64,
    /// The same of drags, drops and abandons while none was.
    closed: [u64; 3],
}

impl Drags {
    /// A call on a player with this drag.
    pub fn add(&mut self, call: &Call, answer: &Answer, before: &Drag) {
        let unchanged = answer.told == Told::Edited { unchanged: true };
        let count = match (call, answer.refusal) {
            (Call::OpenDrag { .. }, 0) => &mut self.opened,
            (Call::Drag { .. }, 0) => &mut self.dragged,
            (Call::DropDrag, 0) if !before.moved => &mut self.untouched,
            (Call::DropDrag, 0) if unchanged => &mut self.back,
            (Call::DropDrag, 0) => &mut self.dropped,
            (Call::AbandonDrag, 0) => &mut self.abandoned[usize::from(before.moved)],
            (Call::Save { .. }, 0) if before.open => &mut self.saves,
            (_, 0) if before.open && call.shows() => &mut self.moves,
            (_, 0) if before.open && call.takes_book() => &mut self.readings,
            (Call::Edit { .. }, 15) => &mut self.edits,
            (Call::Undo | Call::Redo, 15) => &mut self.takes,
            (Call::OpenDrag { .. }, 15) => &mut self.openings,
            (Call::Drag { .. }, 15) => &mut self.closed[0],
            (Call::DropDrag, 15) => &mut self.closed[1],
            (Call::AbandonDrag, 15) => &mut self.closed[2],
            _ => return,
        };
        *count += 1;
    }

    /// Each count with its name.
    pub fn each(&self) -> [(&'static str, u64); 16] {
        [
            ("opened", self.opened),
            ("dragged", self.dragged),
            ("dropped as an edit", self.dropped),
            (BACK, self.back),
            ("dropped with no accepted drag", self.untouched),
            ("abandoned", self.abandoned[1]),
            ("abandoned with no accepted drag", self.abandoned[0]),
            ("plays, poses and ticks while open", self.moves),
            ("readings while open", self.readings),
            ("saves while open", self.saves),
            ("15 of edits", self.edits),
            ("15 of undos and redos", self.takes),
            ("15 of openings", self.openings),
            ("15 of drags", self.closed[0]),
            ("15 of drops", self.closed[1]),
            ("15 of abandons", self.closed[2]),
        ]
    }

    /// Whether each of them occurred.
    pub fn is_whole(&self) -> bool {
        self.each().iter().all(|(_, count)| *count > 0)
    }
}
