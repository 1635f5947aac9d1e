//! What is asked of the Rust and of this repository's code: generators of
//! cases, and the stored samples of the Rust's answers. Every case follows from
//! a seed.

pub mod bits;
pub mod calls;
pub mod channel_names;
pub mod curves;
pub mod format;
pub mod geometry;
pub mod random;
pub mod reach;
pub mod reached;
pub mod readings;
pub mod sample;
pub mod sheets;
pub mod stored;
