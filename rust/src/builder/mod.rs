//! Sheets and books built row by row. The calls keep what they are given; `build` checks it row by row, lays it out and
//! asks the proved code.

mod book;
mod error;
#[cfg(test)]
mod exact;
mod layout;
mod rules;
mod sheet;

pub use book::{BookBuilder, MaterialBuilder, PaneBuilder};
pub use error::{BuildError, Problem, Row};
pub use sheet::{AnimationBuilder, ContentBuilder, SheetBuilder};
