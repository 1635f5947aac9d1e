//! What a run met.

#[derive(Clone, Copy)]
pub enum Met {
    KeyEdit,
    SlopeEdit,
    Drag,
    Drop,
    Abandon,
    Undo,
    Redo,
    List,
    Unchanged,
    Constant,
    Step,
    Hermite,
    Nothing,
    Overridden,
    Decides,
    NoEffect,
    Marked,
    Differs,
    Visible,
    Alpha,
    Texture,
    Follows,
    FollowsAndDiffers,
    Hidden,
    Outside,
    Apart,
    NotApart,
    Declined,
    Rust,
    Command,
}

const NAMES: [(Met, &str); 30] = [
    (Met::KeyEdit, "key edits"),
    (Met::SlopeEdit, "slope edits"),
    (Met::Drag, "drags"),
    (Met::Drop, "drops"),
    (Met::Abandon, "abandoned drags"),
    (Met::Undo, "undos"),
    (Met::Redo, "redos"),
    (Met::List, "lists of several edits, as one"),
    (Met::Unchanged, "of all these leave every key as it was"),
    (Met::Constant, "edited keys of a Constant"),
    (Met::Step, "edited keys of a Step"),
    (Met::Hermite, "edited keys of a Hermite"),
    (Met::Nothing, "of a track that addresses nothing"),
    (
        Met::Overridden,
        "of a track whose channel a later one decides",
    ),
    (Met::Decides, "of a track that decides a channel"),
    (
        Met::NoEffect,
        "changed keys with which everything reads the same at every frame asked",
    ),
    (Met::Marked, "marked channels"),
    (Met::Differs, "of them read differently at a frame asked"),
    (Met::Visible, "of these are a pane's visible"),
    (Met::Alpha, "of these are a pane's alpha"),
    (Met::Texture, "of these are a texture"),
    (Met::Follows, "marked panes that follow a row above"),
    (
        Met::FollowsAndDiffers,
        "of them differ under their parents and not by themselves",
    ),
    (
        Met::Hidden,
        "panes whose own visible or alpha differs at a frame, and nothing under their parents",
    ),
    (
        Met::Outside,
        "readings of a curve outside the reach of its edited key",
    ),
    (Met::Apart, "frames at which a track is apart"),
    (Met::NotApart, "frames at which an edited one is not"),
    (Met::Declined, "declined calls"),
    (Met::Rust, "frames read by the published Rust"),
    (Met::Command, "lists given to the command too"),
];

#[derive(Default)]
pub struct Counts([u64; NAMES.len()]);

impl Counts {
    pub fn add(&mut self, met: Met, count: usize) {
        self.0[met as usize] += count as u64;
    }

    pub fn of(&self, met: Met) -> u64 {
        self.0[met as usize]
    }

    pub fn print(&self) {
        for (met, name) in NAMES {
            println!("{} {name}", self.of(met));
        }
    }

    /// What was never met.
    pub fn missing(&self) -> Vec<&'static str> {
        let never = NAMES.iter().filter(|(met, _)| self.of(*met) == 0);
        never.map(|(_, name)| *name).collect()
    }
}
