//! Plays, poses, ticks, readings and saves in every kind of view: the plain machine
//! and the plain player beside the proved one.

use crate::lists::Counts;
use crate::ours::Ours;
use cases::calls::walk::Walk;
use cases::calls::{Call, views};
use cases::format::book::Book;
use cases::format::sheet::Sheet;
use cases::random::Random;

impl Counts {
    /// Every call in every view, each from the view anew, while no drag is open and
    /// while one is.
    pub fn each_view(&mut self) -> Option<String> {
        views::starts().iter().find_map(|start| {
            views::pairs()
                .iter()
                .find_map(|(sheet, book)| self.views_of(sheet, book, start))
        })
    }

    fn views_of(&mut self, sheet: &Sheet, book: &Book, start: &[Call]) -> Option<String> {
        let mut walk = Walk::new(Random::new(0), sheet, book, 0);
        let mut ours = Ours::load(&walk.held.sheet_bytes);
        for &call in start {
            let step = walk.call(call);
            let difference = self.step(&step, &walk, &mut ours);
            if difference.is_some() {
                return difference;
            }
        }
        let calls = views::calls(sheet);
        for view in views::views(sheet) {
            for &call in &calls {
                for spoil in views::spoils(&view) {
                    walk.spoil(&spoil);
                    ours.spoil(&spoil);
                }
                let step = walk.call(call);
                if let Some(what) = self.step(&step, &walk, &mut ours) {
                    return Some(format!("{view:?}, after {start:?}: {what}"));
                }
            }
        }
        None
    }
}
