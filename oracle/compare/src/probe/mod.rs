//! Safe calls of the proved library `probe`. A slice goes as two arguments, its
//! pointer and its length.

pub mod apart;
pub mod curves;
pub mod formats;
pub mod readings;
