//! Text of SVG, and the colours of every kind of picture.

use dovebolt::Pane;

/// As wide as a README is shown, so that a letter comes out at the size that is written here.
pub const WIDTH: f64 = 830.0;
pub const MARGIN: f64 = 22.0;

/// The smallest letters. They stay above 11 where a README is a little narrower.
pub const SMALL: f64 = 11.5;

pub const CELL: &str = "#ffffff";
pub const LINE: &str = "#d3d0c8";
pub const INK: &str = "#2b2a28";
pub const QUIET: &str = "#5f5c56";

/// Hues that neighbours tell apart.
pub const HUES: [u16; 12] = [210, 265, 30, 165, 330, 95, 12, 190, 290, 48, 235, 350];

/// A hue for each pane.
fn hue(pane: &Pane) -> u16 {
    HUES[(usize::from(pane.number) + HUES.len() - 1) % HUES.len()]
}

pub fn fill(pane: &Pane) -> String {
    fill_of(hue(pane))
}

pub fn stroke(pane: &Pane) -> String {
    stroke_of(hue(pane))
}

pub fn fill_of(hue: u16) -> String {
    format!("hsl({hue},58%,74%)")
}

pub fn stroke_of(hue: u16) -> String {
    format!("hsl({hue},46%,30%)")
}

/// A character that XML doesn't allow, or that can't be seen, becomes one that stands for it.
fn allowed(c: char) -> char {
    match u32::from(c) {
        n @ 0..=0x1f => char::from_u32(0x2400 + n).unwrap_or(char::REPLACEMENT_CHARACTER),
        0x7f => '\u{2421}',
        0x80..=0x9f | 0xfffe | 0xffff => char::REPLACEMENT_CHARACTER,
        _ => c,
    }
}

/// Words as they may stand between tags and in an attribute.
pub fn escaped(words: &str) -> String {
    let mut out = String::new();
    for c in words.chars() {
        match allowed(c) {
            '&' => out += "&amp;",
            '<' => out += "&lt;",
            '>' => out += "&gt;",
            '"' => out += "&quot;",
            '\'' => out += "&apos;",
            c => out.push(c),
        }
    }
    out
}

pub fn text(x: f64, y: f64, size: f64, colour: &str, more: &str, words: &str) -> String {
    format!(
        "<text x=\"{x:.1}\" y=\"{y:.1}\" font-size=\"{size}\" fill=\"{colour}\"{more}>{}</text>\n",
        escaped(words)
    )
}

/// What a reader sees on pointing at the element that this stands in.
pub fn title(words: &str) -> String {
    format!("<title>{}</title>", escaped(words))
}
