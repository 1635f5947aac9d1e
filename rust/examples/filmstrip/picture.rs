//! A picture by itself: its heading, its background and its description.

use crate::drawing::svg::{INK, MARGIN, QUIET, WIDTH, escaped, text};
use crate::drawing::words;

pub const LARGE: f64 = 21.0;
pub const MIDDLE: f64 = 13.0;

/// A heading's letters for its width: bold ones are wider by about a tenth.
pub const HEADING: f64 = LARGE * 1.1;
pub const HEADING_ROOM: f64 = WIDTH - MARGIN * 2.0;

const PAPER: &str = "#f8f7f4";

/// Lines that are no wider than the room; a word that is wider by itself is cut.
pub fn wrapped(text: &str, size: f64, room: f64) -> Vec<String> {
    let mut lines: Vec<String> = vec![];
    for word in text.split(' ').filter(|w| !w.is_empty()) {
        let word = words::cut(word, size, room);
        match lines.last_mut() {
            Some(line)
                if words::width(line, size)
                    + words::width(" ", size)
                    + words::width(&word, size)
                    <= room =>
            {
                line.push(' ');
                line.push_str(&word);
            }
            _ => lines.push(word),
        }
    }
    lines
}

/// A heading with lines below it, and how far down they reach.
pub fn heading(over: &str, under: &str) -> (String, f64) {
    const BASE: f64 = 38.0;
    const STEP: f64 = 18.0;
    let over = words::cut(over, HEADING, HEADING_ROOM);
    let mut out = text(MARGIN, BASE, LARGE, INK, " font-weight=\"bold\"", &over);
    let mut y = BASE + 4.0;
    for line in wrapped(under, MIDDLE, HEADING_ROOM) {
        y += STEP;
        out += &text(MARGIN, y, MIDDLE, QUIET, "", &line);
    }
    (out, y)
}

/// What a picture is, for those who can't see it: a name and a description.
pub struct About {
    pub title: String,
    pub description: String,
}

/// A whole picture. It has a background of its own, to be read on a light page and on a dark one.
pub fn picture(height: f64, about: &About, body: &str) -> String {
    format!(
        "<svg xmlns=\"http://www.w3.org/2000/svg\" viewBox=\"0 0 {WIDTH} {height:.0}\" width=\"{WIDTH}\" \
         height=\"{height:.0}\" role=\"img\" aria-labelledby=\"title desc\" \
         font-family=\"DejaVu Sans, Helvetica, Arial, sans-serif\">\n\
         <title id=\"title\">{}</title>\n<desc id=\"desc\">{}</desc>\n\
         <rect width=\"100%\" height=\"100%\" rx=\"6\" fill=\"{PAPER}\"/>\n{body}</svg>\n",
        escaped(&about.title),
        escaped(&about.description)
    )
}
