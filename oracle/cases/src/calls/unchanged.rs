//! How many edits, drags and drops of a run were unchanged.

use super::{Answer, Call, Request, Told};
use std::fmt;

const KINDS: [&str; 4] = ["key edits", "slope edits", "drags", "drops"];

/// The place in `KINDS` of a call that answers `Told::Edited`.
fn kind(call: &Call) -> usize {
    match call {
        Call::Edit {
            request: Request::Key { .. },
            ..
        } => 0,
        Call::Edit {
            request: Request::Slope(_),
            ..
        } => 1,
        Call::Drag { .. } => 2,
        Call::DropDrag => 3,
        _ => panic!("{call:?} is of no kind"),
    }
}

#[derive(Clone, Copy, Debug, Default)]
pub struct Unchanged {
    /// Accepted, by kind, and of these unchanged.
    accepted: [u64; KINDS.len()],
    unchanged: [u64; KINDS.len()],
    /// Of these with something to redo.
    redo: u64,
}

impl Unchanged {
    /// A call that left `redo` edits to be made again.
    pub fn add(&mut self, call: &Call, answer: &Answer, redo: u64) {
        if let (Told::Edited { unchanged }, 0) = (&answer.told, answer.refusal) {
            let kind = kind(call);
            self.accepted[kind] += 1;
            self.unchanged[kind] += u64::from(*unchanged);
            self.redo += u64::from(*unchanged && redo > 0);
        }
    }

    /// How many of each kind were accepted, and how many of these were unchanged.
    fn each(&self) -> impl Iterator<Item = (u64, u64)> {
        self.accepted.into_iter().zip(self.unchanged)
    }

    /// Whether each kind that occurred did so unchanged and otherwise, and something to
    /// redo was kept.
    pub fn is_whole(&self) -> bool {
        let both_ways = |(all, unchanged)| all == 0 || (unchanged > 0 && unchanged < all);
        self.each().all(both_ways) && self.redo > 0
    }

    /// Whether each kind occurred, a twentieth of it unchanged.
    pub fn is_frequent(&self) -> bool {
        let twentieth = |(all, unchanged)| all > 0 && 20 * unchanged >= all;
        self.each().all(twentieth)
    }
}

impl fmt::Display for Unchanged {
    fn fmt(&self, f: &mut fmt::Formatter<'_>) -> fmt::Result {
        let kinds = self.each().zip(KINDS);
        let kinds = kinds.map(|((all, unchanged), what)| format!("{unchanged} of {all} {what}"));
        let kinds: Vec<String> = kinds.collect();
        let redo = self.redo;
        write!(f, "{}; {redo} with something to redo", kinds.join(", "))
    }
}
