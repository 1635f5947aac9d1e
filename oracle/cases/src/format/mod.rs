//! The two formats, read and written plainly from document 01, "Sheet and
//! book". Reading answers nothing where the bytes break the layout; a row keeps
//! its numbers as the bytes have them, so that a broken one can be written too.

pub mod book;
pub mod bytes;
pub mod keys;
pub mod load;
pub mod save;
pub mod sheet;

/// A name is 24 bytes; zero bytes at its end don't count.
pub type Name = [u8; NAME];
pub const NAME: usize = 24;

/// A name of at most 24 bytes.
pub fn name(text: &str) -> Name {
    let mut name = [0; NAME];
    name[..text.len()].copy_from_slice(text.as_bytes());
    name
}

/// A name as text, without the zero bytes at its end.
pub fn text_of(name: &Name) -> &str {
    let text = std::str::from_utf8(name).expect("names are in UTF-8");
    text.trim_end_matches('\0')
}

/// The refusal that loading a sheet earns by its bytes: 1, 4 or 0 for none.
pub fn loading_refusal(bytes: &[u8]) -> u8 {
    match sheet::Sheet::read(bytes) {
        None => 1,
        Some(sheet) if !keys::own_ok(&sheet) => 4,
        Some(_) => 0,
    }
}

/// The refusal that a book earns by its bytes: 2, or 0 for none.
pub fn book_refusal(bytes: &[u8]) -> u8 {
    if book::Book::read(bytes).is_some() {
        0
    } else {
        2
    }
}
