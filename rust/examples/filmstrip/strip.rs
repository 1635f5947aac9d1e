//! The filmstrip: a cell for each frame in which something changes, in rows.

use std::fmt::Write;

use dovebolt::{Animation, BookView, Player};

use crate::changes;
use crate::drawing::cell::{View, drawing};
use crate::drawing::menu::Menu;
use crate::drawing::svg::{self, MARGIN, WIDTH};
use crate::drawing::words;
use crate::moments::{Drawn, Part, parts};
use crate::picture::{self, About, MIDDLE};

const GAP: f64 = 14.0;
/// From a line of text to the next below a cell.
const STEP: f64 = 15.0;
const CAPTION: f64 = 12.5;
/// A cell that stands for frames that are left out.
const NARROW: f64 = 84.0;
const FEWEST_COLUMNS: usize = 2;
const MOST_COLUMNS: usize = 4;
const LEGEND_ROW: f64 = 21.0;
const LEGEND_COLUMNS: usize = 4;

const ABOUT_CELLS: &str = "A pane fades by its alpha under its parents; hidden panes are left out. \
    Below a cell: changes since the cell before that can't be drawn; below the first, such overrides.";

/// A part with its place in the rows.
struct Placed<'a> {
    part: &'a Part,
    x: f64,
    lines: Vec<String>,
}

/// As few columns as make a square, so that few cells are large.
fn cell_width(cells: usize) -> f64 {
    let columns = (FEWEST_COLUMNS..MOST_COLUMNS)
        .find(|n| n * n >= cells)
        .unwrap_or(MOST_COLUMNS) as f64;
    ((WIDTH - MARGIN * 2.0 + GAP) / columns - GAP).floor()
}

/// The parts from left to right, in rows.
fn rows(parts: &[Part], width: f64) -> Vec<Vec<Placed<'_>>> {
    let mut rows = vec![vec![]];
    let mut x = MARGIN;
    for part in parts {
        let (wide, lines) = match part {
            Part::Drawn(d) => (width, changes::lines(&d.changes, svg::SMALL, width)),
            Part::Still { .. } => (NARROW, vec![]),
        };
        if x + wide > WIDTH - MARGIN {
            rows.push(vec![]);
            x = MARGIN;
        }
        let row = rows.len() - 1;
        rows[row].push(Placed { part, x, lines });
        x += wide + GAP;
    }
    rows
}

fn frame(x: f64, y: f64, width: f64, height: f64, more: &str) -> String {
    format!(
        "<rect x=\"{x:.1}\" y=\"{y:.1}\" width=\"{width:.1}\" height=\"{height:.1}\" fill=\"none\" stroke=\"{}\"{more}/>\n",
        svg::LINE
    )
}

/// A frame's cell at (x, y), its number and its changes. What lies outside the stage is cut off.
fn cell(view: &View, book: BookView, drawn: &Drawn, placed: &Placed, y: f64) -> String {
    let (x, width, height) = (placed.x, view.width, view.height);
    let mut out = format!(
        "<svg x=\"{x:.1}\" y=\"{y:.1}\" width=\"{width:.1}\" height=\"{height:.1}\">\
         <rect width=\"100%\" height=\"100%\" fill=\"{}\"/>\n{}</svg>\n{}",
        svg::CELL,
        drawing(view, book, &drawn.shown, &[]),
        frame(x, y, width, height, "")
    );
    let caption = format!("frame {}", drawn.frame);
    let mut below = y + height + STEP;
    out += &svg::text(x, below, CAPTION, svg::INK, "", &caption);
    if placed.lines.is_empty() {
        return out;
    }
    let all: Vec<&str> = drawn.changes.iter().map(|c| c.exact.as_str()).collect();
    out += &format!("<g>{}\n", svg::title(&all.join(", ")));
    for line in &placed.lines {
        below += STEP;
        out += &svg::text(x, below, svg::SMALL, svg::QUIET, "", line);
    }
    out + "</g>\n"
}

/// A narrow cell for frames that are as the one before them.
fn still(view: &View, first: usize, last: usize, x: f64, y: f64) -> String {
    let like = first - 1;
    let words = if first == last {
        format!("frame {first}: as frame {like}")
    } else {
        format!("frames {first} to {last}: as frame {like}")
    };
    let lines = picture::wrapped(&words, svg::SMALL, NARROW - 8.0);
    let mut out = format!("<g>{}\n", svg::title(&words));
    out += &frame(x, y, NARROW, view.height, " stroke-dasharray=\"4 3\"");
    let top = y + view.height * 0.5 - STEP * lines.len() as f64 * 0.5;
    for (n, line) in lines.iter().enumerate() {
        let base = top + STEP * (n as f64 + 0.75);
        let middle = " text-anchor=\"middle\"";
        out += &svg::text(x + NARROW * 0.5, base, svg::SMALL, svg::QUIET, middle, line);
    }
    out + "</g>\n"
}

fn legend(book: BookView, y: f64) -> (String, f64) {
    let column = (WIDTH - MARGIN * 2.0) / LEGEND_COLUMNS as f64;
    let mut out = String::new();
    for (n, pane) in book.panes().skip(1).enumerate() {
        let x = MARGIN + (n % LEGEND_COLUMNS) as f64 * column;
        let y = y + (n / LEGEND_COLUMNS) as f64 * LEGEND_ROW;
        let _ = writeln!(
            out,
            "<rect x=\"{x:.1}\" y=\"{y:.1}\" width=\"12\" height=\"12\" rx=\"2\" fill=\"{}\" stroke=\"{}\"/>",
            svg::fill(&pane),
            svg::stroke(&pane)
        );
        let label = words::cut(&pane.label.text(), MIDDLE, column - 24.0);
        out += &svg::text(x + 18.0, y + 10.5, MIDDLE, svg::INK, "", &label);
    }
    let rows = (book.panes().len() - 1).div_ceil(LEGEND_COLUMNS);
    (out, y + rows as f64 * LEGEND_ROW)
}

/// How long the animation is, what comes after it, and which frames are left out.
fn summary(animation: &Animation, drawn: usize) -> String {
    let count = usize::from(animation.frames.max(1));
    // A name may be present and empty.
    let next = animation.next.filter(|name| !name.is_empty());
    let end = match (animation.looping, next) {
        (true, _) => "loops".to_string(),
        (false, None) => "plays once".to_string(),
        (false, Some(next)) => format!("plays once, then {next}"),
    };
    let left_out = match count - drawn {
        0 => String::new(),
        1 => " 1 frame in which nothing changes is left out.".to_string(),
        n => format!(" {n} frames in which nothing changes are left out."),
    };
    let plural = if animation.frames == 1 { "" } else { "s" };
    format!("{} frame{plural}, {end}.{left_out}", animation.frames)
}

/// The strip of one animation. A failure names its frame.
pub fn filmstrip(player: &mut Player, menu: &Menu) -> Result<String, String> {
    let parts = parts(player, menu)?;
    let cells = parts.iter().filter(|p| matches!(p, Part::Drawn(_))).count();
    let sheet = menu.sheet.bytes();
    let size = player
        .pose(sheet, Some(menu.animation.number), 0.0)
        .and_then(|()| player.resolve_pane(sheet, menu.book.bytes(), &menu.keys, 0))
        .map_err(|refusal| refusal.to_string())?
        .transform
        .size;
    let view = View::new(size, cell_width(parts.len()));
    let summary = summary(&menu.animation, cells);

    let (mut body, below) = picture::heading(&menu.title(), &format!("{summary} {ABOUT_CELLS}"));
    let mut y = below + GAP + 4.0;
    for row in rows(&parts, view.width) {
        for placed in &row {
            body += &match placed.part {
                Part::Drawn(drawn) => cell(&view, menu.book, drawn, placed, y),
                Part::Still { first, last } => still(&view, *first, *last, placed.x, y),
            };
        }
        let lines = row.iter().map(|p| p.lines.len()).max().unwrap_or(0);
        y += view.height + STEP * (lines + 1) as f64 + GAP;
    }
    let (legend, below) = legend(menu.book, y + 4.0);
    let about = About {
        title: format!("{}: the frames as a strip", menu.title()),
        description: format!(
            "{summary} A cell a frame, {cells} in all, each with the outlines of its panes."
        ),
    };
    Ok(picture::picture(below + GAP, &about, &(body + &legend)))
}
