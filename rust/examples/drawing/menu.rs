//! What the pictures are drawn from.

use dovebolt::{Animation, BookView, Keys, SheetView};

/// One animation of a sheet, with the book that it moves.
pub struct Menu<'a> {
    /// What words call it: the sheet's file without its folder and its ending, or which of two sets of keys it has.
    pub name: String,
    pub sheet: SheetView<'a>,
    pub book: BookView<'a>,
    pub keys: Keys,
    pub animation: Animation,
}

impl Menu<'_> {
    pub fn title(&self) -> String {
        format!("{}, animation {}", self.name, self.animation.number)
    }
}
