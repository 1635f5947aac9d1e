//! Damaged sheets and books: every rule broken alone, and random mutations.

pub mod book;
pub mod keys;
pub mod sheet;

use crate::format::book::Book;
use crate::format::name;
use crate::format::sheet::Sheet;
use crate::random::Random;

/// The good sheet and the good book, with names that meet.
pub fn base_pair() -> (Sheet, Book) {
    let mut book = book::base();
    book.panes[0].label = name("pane");
    book.materials[0].name = name("material");
    (sheet::base(), book)
}

/// Bytes in which one thing was changed, what it was, and the number of the
/// refusal that it earns, 0 where it breaks nothing.
pub struct Changed {
    pub what: String,
    pub bytes: Vec<u8>,
    pub refusal: u8,
}

/// Bytes with a few changed, or with some cut or added at the end.
pub fn mutated(random: &mut Random, bytes: &[u8]) -> Vec<u8> {
    let mut bytes = bytes.to_vec();
    match random.below(16) {
        0 => bytes.truncate(random.below(bytes.len() + 1)),
        1 => bytes.push(random.below(256) as u8),
        _ => {
            for _ in 0..1 + random.below(3) {
                mutate_byte(random, &mut bytes);
            }
        }
    }
    bytes
}

fn mutate_byte(random: &mut Random, bytes: &mut [u8]) {
    let at = random.below(bytes.len());
    let any = random.below(256) as u8;
    bytes[at] = match random.below(6) {
        0 => bytes[at].wrapping_add(1),
        1 => bytes[at].wrapping_sub(1),
        2 => bytes[at] ^ (1 << random.below(8)),
        3 => 0,
        4 => 255,
        _ => any,
    };
}
