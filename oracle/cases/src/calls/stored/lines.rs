//! The lines of a list as they are written. Some have a comment at their end or words
//! parted otherwise, and some are empty or all comment: an answer counts every line, and
//! repeats a call's words alone.

use crate::random::Random;

/// What a text may begin with, which is no part of its first line.
pub const BYTE_ORDER_MARK: char = '\u{FEFF}';

/// One line in so many has a comment at its end, has words parted otherwise, or comes
/// after one that is no call.
const COMMENTED: usize = 12;
const PARTED: usize = 24;
const AFTER_NONE: usize = 48;

/// Some read as further words of a call, which would be too many, or as a call.
const COMMENTS: [&str; 5] = ["1 0.5", "undo", "the next key # and its value", "#", ""];

const GAPS: [&str; 3] = ["\t", "   ", " \t "];

const NO_CALLS: [&str; 5] = ["", "  \t", "# keys", "#", "  # play 0"];

#[derive(Default)]
pub struct Lines {
    text: String,
    count: usize,
}

impl Lines {
    /// No line as yet, behind a byte order mark.
    pub fn marked() -> Self {
        Self {
            text: BYTE_ORDER_MARK.to_string(),
            count: 0,
        }
    }

    /// Writes the line of a call, and gives its number, the first being 1.
    pub fn write(&mut self, words: &str, random: &mut Random) -> usize {
        if random.once_in(AFTER_NONE) {
            self.push(random.pick(&NO_CALLS));
        }
        let gap = if random.once_in(PARTED) {
            random.pick(&GAPS)
        } else {
            " "
        };
        let mut line = words.replace(' ', gap);
        if random.once_in(COMMENTED) {
            line.push_str("  # ");
            line.push_str(random.pick(&COMMENTS));
        }
        self.push(&line);
        self.count
    }

    fn push(&mut self, line: &str) {
        self.text.push_str(line);
        self.text.push('\n');
        self.count += 1;
    }

    pub fn into_bytes(self) -> Vec<u8> {
        self.text.into_bytes()
    }
}
