//! Names that are easily confused: alike but for the last byte, one a part of
//! the other, full and short, with bytes above ASCII, with a zero byte inside.

use crate::format::{Name, name};
use crate::random::Random;

/// `count` distinct names, none of them empty, in random order.
pub fn distinct(random: &mut Random, count: usize) -> Vec<Name> {
    let mut names: Vec<Name> = (0..count).map(|i| one(random.below(6), i)).collect();
    for i in (1..count).rev() {
        names.swap(i, random.below(i + 1));
    }
    names
}

/// A name of so many bytes: letters, zero bytes inside, and characters of two to
/// four bytes.
pub fn of_length(random: &mut Random, length: usize) -> Name {
    const CHARACTERS: [char; 9] = ['n', 'Z', '_', '\0', 'é', 'Я', '次', 'ﾂ', '🕊'];
    let kinds = random.pick(&[3, 4, CHARACTERS.len()]);
    let mut text = String::new();
    while text.len() < length {
        let character = random.pick(&CHARACTERS[..kinds]);
        let end = text.len() + character.len_utf8();
        // A zero byte at the end wouldn't count.
        if end < length || end == length && character != '\0' {
            text.push(character);
        }
    }
    name(&text)
}

/// The i-th name of a style, for i below 120. Two with another style or another
/// i differ.
fn one(style: usize, i: usize) -> Name {
    match style {
        0 => name(&format!("P_{i}")),
        1 => name(&format!(
            "P_alike_to_the_last_one{}",
            char::from(1 + i as u8)
        )),
        2 => name(
            &char::from(b'u' + (i / 24) as u8)
                .to_string()
                .repeat(i % 24 + 1),
        ),
        3 => name(&format!("é_{i}")),
        4 => name(&format!("P_{i}\0part")),
        _ => name(&format!("N_{i:022}")),
    }
}
