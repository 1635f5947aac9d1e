//! Sheets and books: good ones of all sizes, and damaged ones.

pub mod books;
pub mod damage;
pub mod good;
pub mod names;
pub mod sample;
