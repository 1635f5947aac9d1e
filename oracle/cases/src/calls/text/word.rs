//! Panes, materials and channels as a line writes them: some by name, the others by
//! number, so that the command line's look-up of names is compared too.

use super::{channel, counted};
use crate::format::Name;
use crate::format::book::Book;
use crate::random::Random;

pub struct Words<'a> {
    pub book: &'a Book,
    pub random: &'a mut Random,
}

impl Words<'_> {
    pub fn pane(&mut self, pane: u16) -> String {
        let row = self.book.panes.get(usize::from(pane));
        self.either(row.and_then(|row| one_word(&row.label)), pane)
    }

    pub fn material(&mut self, material: u16) -> String {
        let row = self.book.materials.get(usize::from(material));
        self.either(row.and_then(|row| one_word(&row.name)), material)
    }

    pub fn pane_channel(&mut self, channel: u16) -> String {
        self.either(channel::of_pane(channel), channel)
    }

    pub fn material_channel(&mut self, channel: u16) -> String {
        self.either(channel::of_material(channel), channel)
    }

    /// The name half of the time, if there is one.
    fn either(&mut self, name: Option<String>, number: u16) -> String {
        let by_name = self.random.once_in(2);
        let name = name.filter(|_| by_name);
        name.unwrap_or_else(|| number.to_string())
    }
}

/// A name that a line can write as it is: one word, which is no whole number and holds
/// nothing that begins a comment, quotes, or is no character of a line.
fn one_word(name: &Name) -> Option<String> {
    let word = counted(name);
    let apart = |byte: &u8| matches!(byte, 0..=32 | 127 | b'"' | b'\'' | b'#');
    if word.iter().any(apart) || word.iter().all(u8::is_ascii_digit) {
        return None;
    }
    String::from_utf8(word.to_vec()).ok()
}

#[cfg(test)]
mod tests {
    use super::*;
    use crate::format::name;

    #[test]
    fn names_that_a_line_can_write() {
        for word in ["Cursor", "é_0", "12a", "-1", "1.5"] {
            assert_eq!(one_word(&name(word)).as_deref(), Some(word));
        }
        for other in [
            "", "12", "00", "a b", "a\tb", "a\0b", "a\x7F", "#a", "a\"b", "a'b",
        ] {
            assert_eq!(one_word(&name(other)), None, "{other:?}");
        }
        let mut cut = name("a");
        cut[1] = 0xC3;
        assert_eq!(one_word(&cut), None);
    }
}
