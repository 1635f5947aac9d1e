//! What a drawing of the panes can't show, in words: materials, corner colours and depths that change.

use dovebolt::{BookView, Channel, Channels, MaterialChannel, Name, PaneChannel};

use crate::drawing::menu::Menu;
use crate::drawing::unit::Unit;
use crate::drawing::words;
use crate::picture::wrapped;

const MOST_LINES: usize = 2;

pub struct Change {
    pub exact: String,
    short: String,
}

/// A channel that can't be seen in a drawing: its place in a whole reading, and the name of its pane or material.
struct Unseen {
    place: usize,
    owner: Name,
    channel: Channel,
}

/// Textures first and then levels: they say most in a line that is cut.
fn rank(unit: Unit) -> u8 {
    match unit {
        Unit::Texture => 0,
        Unit::Level => 1,
        _ => 2,
    }
}

fn unseen(book: BookView) -> Vec<Unseen> {
    let of = |number: u16, owner: Name, channel: Channel| Unseen {
        place: book.place(number, channel),
        owner,
        channel,
    };
    let mut out = vec![];
    for material in book.materials() {
        let all = MaterialChannel::ALL.map(Channel::Material);
        out.extend(all.map(|c| of(material.number, material.name, c)));
    }
    let hidden = |c: &PaneChannel| *c >= PaneChannel::LeftTopRed || *c == PaneChannel::TranslateZ;
    for pane in book.panes() {
        let all = PaneChannel::ALL.into_iter().filter(hidden);
        out.extend(all.map(|c| of(pane.number, pane.label, Channel::Pane(c))));
    }
    out.sort_by_key(|u| rank(Unit::of(u.channel)));
    out
}

fn bits(all: &Channels, place: usize) -> Option<u32> {
    all.get(place).map(f32::to_bits)
}

/// What differs from the reading before; from no override at all where there is none.
pub fn changes(menu: &Menu, before: Option<&Channels>, now: &Channels) -> Vec<Change> {
    let differs = |u: &Unseen| bits(now, u.place) != before.and_then(|b| bits(b, u.place));
    let change = |u: Unseen| {
        let (exact, short) = match now.get(u.place) {
            Some(number) => Unit::of(u.channel).words(number, menu.sheet),
            None => ("no override".to_string(), "no override".to_string()),
        };
        Change {
            exact: format!("{} {} {exact}", u.owner, u.channel),
            short: format!("{} {} {short}", u.owner, u.channel),
        }
    };
    unseen(menu.book)
        .into_iter()
        .filter(differs)
        .map(change)
        .collect()
}

/// The changes in two lines at most: as many as have room, and how many more there are.
pub fn lines(changes: &[Change], size: f64, room: f64) -> Vec<String> {
    // Two lines never have room for more.
    const MOST_CHANGES: usize = 12;
    let whole = |shown: usize| {
        let parts: Vec<&str> = changes[..shown].iter().map(|c| c.short.as_str()).collect();
        let tail = more(changes.len() - shown);
        let space = if tail.is_empty() { "" } else { " " };
        let words = parts.join(", ") + space + &tail;
        let lines = wrapped(&words, size, room);
        (lines.len() <= MOST_LINES && lines.join(" ") == words).then_some(lines)
    };
    let counts = (1..=changes.len().min(MOST_CHANGES)).rev();
    let lines = match counts.filter_map(whole).next() {
        Some(lines) => lines,
        None => cut(changes, size, room),
    };
    lines
        .iter()
        .map(|line| line.replace(words::JOINED, " "))
        .collect()
}

/// The first change with an ellipsis in it, where not even that one has room.
fn cut(changes: &[Change], size: f64, room: f64) -> Vec<String> {
    let Some(first) = changes.first() else {
        return vec![];
    };
    let lines = wrapped(&first.short, size, room);
    let tail = match more(changes.len() - 1) {
        none if none.is_empty() && lines.len() <= MOST_LINES => return lines,
        none if none.is_empty() => "…".to_string(),
        some => some,
    };
    let rest = lines[1..].join(" ");
    vec![
        lines[0].clone(),
        words::cut_before(&rest, &tail, size, room),
    ]
}

fn more(count: usize) -> String {
    match count {
        0 => String::new(),
        n => format!("… and {n} more").replace(' ', &words::JOINED.to_string()),
    }
}
