//! The page: its parts in order, and its style.

use std::fmt::Write;

use crate::common::named;
use crate::compare::{self, Compared};
use crate::drawing::{keys, plot, svg};
use crate::pair::Pair;
use crate::{edits, frames, head, html, reached, tracks, untouched};

/// Light and dark, narrow and wide, and on paper. The pictures bring their light colours with them.
const STYLE: &str = include_str!("style.css");

/// The pictures' colours on a dark page, in place of those that they are drawn with.
fn dark_pictures() -> String {
    let mut out = String::from("@media screen and (prefers-color-scheme: dark) {\n");
    for (colour, dark) in [
        (svg::CELL, "var(--card)"),
        (svg::LINE, "var(--line)"),
        (svg::INK, "var(--ink)"),
        (svg::QUIET, "var(--quiet)"),
        (plot::CURVE, "var(--after)"),
        (keys::COLOUR, "var(--edit)"),
    ] {
        for part in ["fill", "stroke"] {
            let _ = writeln!(out, "  svg [{part}=\"{colour}\"] {{ {part}: {dark}; }}");
        }
    }
    for hue in svg::HUES {
        let (fill, stroke) = (svg::fill_of(hue), svg::stroke_of(hue));
        let _ = writeln!(
            out,
            "  svg [fill=\"{fill}\"] {{ fill: hsl({hue},42%,42%); }}"
        );
        let _ = writeln!(
            out,
            "  svg [fill=\"{stroke}\"] {{ fill: hsl({hue},70%,88%); }}"
        );
        let _ = writeln!(
            out,
            "  svg [stroke=\"{stroke}\"] {{ stroke: hsl({hue},60%,74%); }}"
        );
    }
    out + "}\n"
}

const CONTENTS: &str = "<nav aria-label=\"Parts of this page\">\n<ul>\n\
    <li><a href=\"#edited\">What was edited</a></li>\n\
    <li><a href=\"#reached\">What the edits reach</a></li>\n\
    <li><a href=\"#frames\">Before and after</a></li>\n\
    <li><a href=\"#untouched\">Proved untouched</a></li>\n\
    </ul>\n</nav>\n";

fn foot() -> String {
    format!(
        "<footer>\n<p>Made by the example program <code>review</code> of dovebolt {}. What is touched is told by the proved call \
         <code>menu_reach</code>; readings and drawings are of the proved calls <code>menu_read_all</code>, \
         <code>menu_cascade</code> and <code>menu_resolve_pane</code>.</p>\n</footer>\n",
        env!("CARGO_PKG_VERSION")
    )
}

fn main_part(
    pair: &Pair,
    edits: &[edits::Edit],
    sides: &untouched::Sides,
) -> Result<String, String> {
    let mut compared: Vec<Compared> = vec![];
    for animation in pair.sheet.animations() {
        if pair.touched(animation.number).any() {
            let one = compare::compared(pair, animation);
            compared.push(named(&format!("animation {}", animation.number), one)?);
        }
    }
    let mut out = named("tracks", tracks::section(pair, edits))?;
    out += &reached::section(pair, edits, &compared);
    out += &named("frames", frames::section(pair, &compared))?;
    Ok(out + &untouched::section(pair, sides))
}

/// The page. A failure names what could not be read.
pub fn page(pair: &Pair) -> Result<String, String> {
    let edits = edits::edits(pair);
    let sides = untouched::sides(pair);
    let main = main_part(pair, &edits, &sides)?;
    Ok(format!(
        "<!DOCTYPE html>\n<html lang=\"en\">\n<head>\n<meta charset=\"utf-8\"/>\n\
         <meta name=\"viewport\" content=\"width=device-width, initial-scale=1\"/>\n\
         <meta name=\"color-scheme\" content=\"light dark\"/>\n<title>Review: {}</title>\n\
         <style>\n{STYLE}{}</style>\n</head>\n<body>\n<a class=\"skip\" href=\"#main\">Skip to the review</a>\n\
         {}{CONTENTS}<main id=\"main\" tabindex=\"-1\">\n{}{main}</main>\n{}</body>\n</html>\n",
        html::escaped(&pair.files.new),
        dark_pictures(),
        head::header(pair, &edits, &sides),
        head::meaning(),
        foot()
    ))
}
