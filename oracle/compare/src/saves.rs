//! What an accepted save must come to beside its bytes, and how many there were.

use crate::ours::Ours;
use cases::calls::held::Held;

#[derive(Clone, Copy, Default)]
pub struct Saves {
    /// Loaded as the keys held, and saved once more.
    again: u64,
    /// Gave the loaded sheet; of them with all edits undone.
    same: u64,
    undone: u64,
}

impl Saves {
    /// An accepted save. Document 02: "a sheet with no standing edit is written as
    /// the same bytes, and loading a written sheet gives the keys held".
    pub fn add(
        &mut self,
        written: &[u8],
        held: &Held,
        ours: &Ours,
        unedited: bool,
    ) -> Result<(), String> {
        ours.again(written)?;
        self.again += 1;
        let same = written == held.sheet_bytes;
        if unedited && !same {
            return Err("no edit stands, and another sheet is saved".to_string());
        }
        self.same += u64::from(same);
        self.undone += u64::from(unedited && held.player.accepted > 0);
        Ok(())
    }

    /// Whether some save came with all edits undone, and some gave another sheet.
    pub fn both_ways(&self) -> bool {
        self.undone > 0 && self.same < self.again
    }

    pub fn print(&self) {
        let Self {
            again,
            same,
            undone,
        } = self;
        println!(
            "saves: {again} loaded as the keys held and saved again as the same bytes; {same} gave the loaded sheet, {undone} of them with all edits undone"
        );
    }
}
