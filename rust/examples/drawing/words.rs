//! How wide words are drawn, words cut to a width, and numbers in words.

/// A space at which a line isn't broken.
pub const JOINED: char = '\u{a0}';

/// A letter's width at size 1: that of DejaVu Sans or a little more. The other fonts that a picture names are narrower.
fn letter(c: char) -> f64 {
    match c {
        ' ' | JOINED | '.' | ',' | ':' | ';' | '\'' | '|' | '!' | '(' | ')' | 'f' | 'i' | 'j'
        | 'l' | 'r' | 't' => 0.41,
        '#' | '%' | '+' | '<' | '=' | '>' | '@' | '~' | 'M' | 'W' | 'm' | 'w' => 1.0,
        'A'..='Z' => 0.79,
        '!'..='~' => 0.64,
        _ => 1.0,
    }
}

pub fn width(words: &str, size: f64) -> f64 {
    words.chars().map(letter).sum::<f64>() * size
}

/// The longest start of the words that has room together with the tail.
pub fn cut_before(words: &str, tail: &str, size: f64, room: f64) -> String {
    let mut kept = words.to_string();
    while width(&kept, size) + width(tail, size) > room && kept.pop().is_some() {}
    kept + tail
}

/// The words, or as much of them as has room before an ellipsis.
pub fn cut(words: &str, size: f64, room: f64) -> String {
    if width(words, size) <= room {
        words.to_string()
    } else {
        cut_before(words, "…", size, room)
    }
}

/// An f32 as the shorter of its two notations. Both read back as the same number.
pub fn exact(x: f32) -> String {
    let (plain, power) = (format!("{x}"), format!("{x:e}"));
    if plain.len() <= power.len().max(7) {
        plain
    } else {
        power
    }
}

/// Three digits after the point at most, for a line with little room.
pub fn short(x: f32) -> String {
    if x.abs() < 1e-3 || x.abs() >= 1e6 {
        return exact(x);
    }
    format!("{}", (f64::from(x) * 1000.0).round() / 1000.0)
}
