//! Runs of the published Rust beside this repository's proved code.

pub mod alone;
pub mod arguments;
pub mod both;
pub mod json;
pub mod last_rows;
pub mod lists;
pub mod ours;
pub mod probe;
pub mod reach;
pub mod saves;
pub mod shapes;
pub mod tally;
pub mod views;
