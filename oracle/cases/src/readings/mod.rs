//! What the Rust reads from a sheet and a book: `AnimationState::evaluate` of an
//! animation at a frame, both resolves, and the cascade.

pub mod addressed;
pub mod published_form;
pub mod rows;
pub mod some;
pub mod whole;

use crate::format::book::Book;
use crate::format::sheet::Sheet;

/// A sheet, a book, and what is asked: an animation at a frame, or nothing.
#[derive(Clone, Debug)]
pub struct Case {
    pub sheet: Sheet,
    pub book: Book,
    pub active: Option<(usize, f32)>,
}
