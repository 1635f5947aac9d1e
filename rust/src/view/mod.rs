//! The rows of a sheet and of a book. A view is made only of bytes that the proved code has accepted, so that each field
//! is there and in its range.

mod book;
mod fields;
mod sheet;

pub use book::{BookView, Horizontal, Material, Pane, Vertical};
pub use sheet::{Animation, Content, Curve, SheetView, Track};

pub(crate) use book::{INFLUENCES_ALPHA, NO_PARENT, VISIBLE};
pub(crate) use fields::NAME;
