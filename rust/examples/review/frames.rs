//! The page's part with frames before and after, side by side.

use std::fmt::Write;

use dovebolt::{Player, Refusal, Vector2f};

use crate::compare::{Change, Compared, Line, Owner};
use crate::drawing::cell::{Outlined, View, drawing};
use crate::drawing::keys::COLOUR;
use crate::drawing::menu::Menu;
use crate::drawing::{stage, svg};
use crate::html;
use crate::pair::Pair;
use crate::reached::arrow;

const ABOUT: &str = "<p>A pane that differs in a frame is outlined: dashed before and solid after, thick where a channel of \
    its own differs and thin where it only follows a pane above it. A pane fades by its alpha under its parents; hidden panes \
    are left out.</p>\n";

/// Frames of an animation that are drawn, and changes below each that are told.
const MOST_FRAMES: usize = 12;
const MOST_TOLD: usize = 6;
/// A cell's width: the least that two pairs beside each other leave it, so that no letter is shown smaller than it is.
const WIDTH: f64 = 218.0;

/// The outlines of panes that differ: dashed before, solid after.
const DASHES: [&str; 2] = [" stroke-dasharray=\"5 3\"", ""];
/// Thick where a channel of its own differs, thin where the pane only follows.
const THICK: f64 = 2.5;
const THIN: f64 = 1.0;

/// The numbers from 0 up to `count`, or as many of them as are drawn, evenly apart with both ends.
fn picked(count: usize) -> Vec<usize> {
    if count <= MOST_FRAMES {
        return (0..count).collect();
    }
    let last = MOST_FRAMES - 1;
    (0..MOST_FRAMES)
        .map(|n| (n * (count - 1) + last / 2) / last)
        .collect()
}

/// What differs at a frame.
type Differing<'a> = Vec<(&'a Line, Change)>;

/// The panes whose own channels differ, and those that only follow.
fn outlined(differing: &Differing) -> [Vec<u16>; 2] {
    let panes = |own: bool| {
        let lines = differing.iter().filter(move |(line, _)| line.own() == own);
        let panes = lines.filter_map(|(line, _)| match line.owner {
            Owner::Pane(number, _) => Some(number),
            Owner::Material(..) => None,
        });
        let mut panes: Vec<u16> = panes.collect();
        panes.dedup();
        panes
    };
    let (own, mut follow) = (panes(true), panes(false));
    follow.retain(|pane| !own.contains(pane));
    [own, follow]
}

/// One drawing, or why there is none: numbers and angles can be too large to be placed.
fn cell(
    player: &mut Player,
    menu: &Menu,
    view: &View,
    frame: usize,
    outlined: &[Outlined],
) -> String {
    let number = menu.animation.number;
    let posed = player.pose(menu.sheet.bytes(), Some(number), frame as f32);
    let shown = posed
        .map_err(|refusal| refusal.to_string())
        .and_then(|()| stage::shown(player, menu));
    let shown = match shown {
        Ok(shown) => shown,
        Err(why) => {
            return format!(
                "<p class=\"none\">Can't be drawn: {}</p>\n",
                html::escaped(&why)
            );
        }
    };
    let (width, height) = (view.width, view.height);
    let body = format!(
        "<rect width=\"{width:.1}\" height=\"{height:.1}\" fill=\"{}\"/>\n{}",
        svg::CELL,
        drawing(view, menu.book, &shown, outlined)
    );
    let title = format!("{}, frame {frame}", menu.title());
    let labels: Vec<String> = shown.iter().map(|s| s.pane.label.to_string()).collect();
    let description = format!("Panes that are shown: {}.", html::list(&labels));
    let id = format!("{}-{number}-{frame}", menu.name);
    html::picture(&id, (width, height), &title, &description, &body)
}

fn told(pair: &Pair, differing: &Differing) -> String {
    let words = |(line, change): &(&Line, Change)| {
        let (Owner::Pane(_, name) | Owner::Material(_, name)) = &line.owner;
        let arrow = arrow(change.words(line.what.unit(), pair.sheet));
        let (name, what) = (html::name(name), line.what.words());
        format!("<li>{name} {what}: {arrow}</li>")
    };
    let own = || differing.iter().filter(|(line, _)| line.own());
    let mut out: String = own().take(MOST_TOLD).map(words).collect();
    let more = own().skip(MOST_TOLD).count();
    if more > 0 {
        let _ = write!(out, "<li>and {more} more</li>");
    }
    let [_, follow] = outlined(differing);
    if !follow.is_empty() {
        let panes = html::count(follow.len(), "pane that follows", "panes that follow");
        let _ = write!(out, "<li>{panes}</li>");
    }
    out
}

/// A frame before and after, and what differs.
fn figure(
    pair: &Pair,
    player: &mut Player,
    compared: &Compared,
    view: &View,
    frame: usize,
) -> Result<String, Refusal> {
    let differing = compared.at(player, frame)?;
    let [own, follow] = outlined(&differing);
    let mut cells = String::new();
    for (menu, dashes) in compared.menus.iter().zip(DASHES) {
        let line = |width: f64| format!("stroke=\"{COLOUR}\" stroke-width=\"{width}\"{dashes}");
        let (thick, thin) = (line(THICK), line(THIN));
        let outlined =
            [(&follow, &thin), (&own, &thick)].map(|(panes, line)| Outlined { panes, line });
        let drawn = cell(player, menu, view, frame, &outlined);
        let name = &menu.name;
        let _ = write!(cells, "<div><p class=\"which\">{name}</p>\n{drawn}</div>\n");
    }
    Ok(format!(
        "<figure class=\"frame\">\n<figcaption><strong>Frame {frame}</strong>\n<ul>{}</ul></figcaption>\n\
         <div class=\"pair\">\n{cells}</div>\n</figure>\n",
        told(pair, &differing)
    ))
}

/// The size of the stage, as the first pane has it.
fn stage_size(player: &mut Player, menu: &Menu) -> Vector2f {
    let (sheet, book) = (menu.sheet.bytes(), menu.book.bytes());
    let posed = player.pose(sheet, Some(menu.animation.number), 0.0);
    let pane = posed.and_then(|()| player.resolve_pane(sheet, book, &menu.keys, 0));
    pane.map_or(Vector2f::default(), |pane| pane.transform.size)
}

/// The panes by their colours. Pane 0 is the stage itself.
fn legend(pair: &Pair) -> String {
    let mut out = String::from("<ul class=\"legend\" aria-label=\"Panes by colour\">\n");
    for pane in pair.book.panes().skip(1) {
        let _ = writeln!(
            out,
            "<li><svg viewBox=\"0 0 14 14\" aria-hidden=\"true\"><rect x=\"1\" y=\"1\" width=\"12\" height=\"12\" rx=\"2\" \
             fill=\"{}\" stroke=\"{}\"/></svg> {}</li>",
            svg::fill(&pane),
            svg::stroke(&pane),
            html::name(&pane.label)
        );
    }
    out + "</ul>\n"
}

/// Which frames are drawn.
fn drawn_words(compared: &Compared, drawn: usize) -> String {
    let all = compared.frames.count();
    let runs = compared.frames.words();
    if all == 0 {
        return "At no whole frame does anything differ. Between whole frames it may.".to_string();
    }
    let differ = format!(
        "Something differs at {}: {runs}.",
        html::count(all, "whole frame", "whole frames")
    );
    if drawn == all {
        return differ;
    }
    format!("{differ} {drawn} of them are drawn, evenly picked, the first and the last among them.")
}

fn animation(pair: &Pair, player: &mut Player, compared: &Compared) -> Result<String, Refusal> {
    let view = View::new(stage_size(player, &compared.menus[0]), WIDTH);
    let picked = picked(compared.frames.count());
    let number = compared.menus[0].animation.number;
    let mut out = format!(
        "<h3 id=\"frames-{number}\">Animation {number}</h3>\n<p>{}</p>\n",
        drawn_words(compared, picked.len())
    );
    if !picked.is_empty() {
        out += &legend(pair);
    }
    out += "<div class=\"frames\">\n";
    for (n, frame) in compared.frames.iter().enumerate() {
        if picked.contains(&n) {
            out += &figure(pair, player, compared, &view, frame)?;
        }
    }
    Ok(out + "</div>\n")
}

pub fn section(pair: &Pair, compared: &[Compared]) -> Result<String, Refusal> {
    let (mut player, _) = Player::load(pair.sheet.bytes())?;
    let mut out = String::from(
        "<section aria-labelledby=\"frames\">\n<h2 id=\"frames\">Before and after</h2>\n",
    );
    out += if compared.is_empty() {
        "<p>Nothing is touched, so that no frame is drawn.</p>\n"
    } else {
        ABOUT
    };
    for one in compared {
        out += &animation(pair, &mut player, one)?;
    }
    Ok(out + "</section>\n")
}
