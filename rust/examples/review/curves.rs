//! The picture of an edited track: its channel as it reads before and after, its keys, and the frames that the edit can
//! reach.

use dovebolt::{Animation, Curve, Player, Refusal};

use crate::drawing::axis::Axis;
use crate::drawing::keys::{self, COLOUR, Key};
use crate::drawing::menu::Menu;
use crate::drawing::plot::{self, Plot, SOLID, Stretch, Stroke, quiet};
use crate::drawing::samples::{Place, ends, samples};
use crate::drawing::svg::{self, MARGIN, QUIET, WIDTH};
use crate::drawing::unit::Unit;
use crate::drawing::words;
use crate::edits::{Edit, Span};
use crate::html;
use crate::pair::Pair;

const DASHED: Stroke = Stroke {
    colour: QUIET,
    more: " stroke-dasharray=\"7 5\"",
};
const SHADE: f64 = 0.13;
const LEGEND: f64 = 20.0;
const TOP: f64 = 66.0;
const LETTERS: f64 = 12.0;

/// Where the edited keys were, and all keys as they are after, which are drawn on top.
fn both(edit: &Edit, menus: &[Menu; 2], unit: Unit) -> Vec<Key> {
    let before = keys::of(&menus[0].keys, &edit.track, unit);
    let past = |(_, key): (usize, Key)| Key {
        label: format!("was {}", key.label),
        stored: format!("before, {}", key.stored),
        past: true,
        ..key
    };
    let edited = |(n, _): &(usize, Key)| edit.keys.contains(n);
    let past = before.into_iter().enumerate().filter(edited).map(past);
    let after = keys::of(&menus[1].keys, &edit.track, unit);
    past.chain(after).collect()
}

/// The frames of a span, between dotted lines at the ends that it has.
fn shade(plot: &Plot, span: &Span) -> String {
    let (left, top, right, bottom) = plot.rect;
    let at = |frame: Option<f32>, end: f64| frame.map_or(end, |f| plot.x(f64::from(f)));
    let (from, to) = (at(span.from, left), at(span.to, right));
    let mut out = format!(
        "<rect x=\"{from:.1}\" y=\"{top:.1}\" width=\"{:.1}\" height=\"{:.1}\" fill=\"{COLOUR}\" fill-opacity=\"{SHADE}\"/>\n",
        to - from,
        bottom - top
    );
    for x in [span.from.map(|_| from), span.to.map(|_| to)]
        .into_iter()
        .flatten()
    {
        out += &format!(
            "<path d=\"M{x:.1} {top:.1}V{bottom:.1}\" stroke=\"{COLOUR}\" stroke-dasharray=\"2 3\"/>\n"
        );
    }
    out
}

/// What the lines and the shade are, from left to right.
fn legend(spans: &[Span]) -> String {
    let sample = |x: f64, stroke: &Stroke| {
        let line: Stretch = vec![(x, LEGEND), (x + 36.0, LEGEND)];
        plot::line(&[line], stroke)
    };
    let word = |x: f64, word: &str| svg::text(x, LEGEND + 4.0, LETTERS, svg::INK, "", word);
    let spans: Vec<String> = spans.iter().map(Span::words).collect();
    let reach = format!("what the edit can reach: {}", html::list(&spans));
    let reach = words::cut(&reach, LETTERS, WIDTH - MARGIN - 270.0);
    sample(MARGIN, &DASHED)
        + &word(MARGIN + 44.0, "before")
        + &sample(MARGIN + 110.0, &SOLID)
        + &word(MARGIN + 154.0, "after")
        + &format!(
            "<rect x=\"{:.1}\" y=\"{:.1}\" width=\"30\" height=\"14\" fill=\"{COLOUR}\" \
             fill-opacity=\"{SHADE}\" stroke=\"{COLOUR}\" stroke-dasharray=\"2 3\"/>\n",
            MARGIN + 208.0,
            LEGEND - 7.0
        )
        + &word(MARGIN + 246.0, &reach)
}

/// The edited keys in words.
fn told(all: &[Key]) -> String {
    const MOST: usize = 20;
    let was = all.iter().filter(|key| key.past);
    let labels: Vec<&str> = was.map(|key| key.label.as_str()).take(MOST).collect();
    let now = all.iter().filter(|key| !key.past);
    let now: Vec<&str> = now.map(|key| key.label.as_str()).take(MOST).collect();
    format!(
        "Keys after: {}. Edited: {}.",
        now.join(", "),
        labels.join(", ")
    )
}

/// The shade, both lines, and the keys on top of them.
fn lines(plot: &Plot, spans: &[Span], both: [Vec<Stretch>; 2], all: &[Key]) -> String {
    let [was, is] = both;
    let every: Vec<Stretch> = was.iter().chain(&is).cloned().collect();
    let (marks, without) = keys::draw(plot, all, &every);
    let mut out: String = spans.iter().map(|span| shade(plot, span)).collect();
    out += &(plot::line(&was, &DASHED) + &plot::line(&is, &SOLID) + &marks);
    if without > 0 {
        let words = format!("{without} of {} keys have no room for a label", all.len());
        out += &quiet(plot.rect.2, plot.rect.3 + 37.0, "end", &words);
    }
    out
}

/// The picture, with the readings of both sets of keys.
pub fn picture(
    pair: &Pair,
    animation: Animation,
    edit: &Edit,
    place: Place,
) -> Result<String, Refusal> {
    let menus = pair.menus(animation);
    let (mut player, _) = Player::load(pair.sheet.bytes())?;
    let unit = Unit::of(place.1);
    let all = both(edit, &menus, unit);
    let ends = ends(&menus[1], &all);
    let mut read = |menu: &Menu| {
        let turns = keys::of(&menu.keys, &edit.track, unit);
        samples(&mut player, menu, place, ends, &turns)
    };
    let (before, after) = (read(&menus[0])?, read(&menus[1])?);
    let drawn = before.iter().chain(&after).filter_map(|sample| sample.1);
    let readings: Vec<f64> = all.iter().map(|key| key.reading).chain(drawn).collect();

    let plot = Plot::new(TOP, ends, Axis::new(unit, pair.sheet, &readings));
    let stepped = unit.whole() || edit.track.curve != Curve::Hermite;
    let both = [before, after].map(|samples| plot.stretches(&samples, stepped));
    let spans = edit.spans(&pair.before);
    let body = legend(&spans) + &plot.axes() + &lines(&plot, &spans, both, &all);
    let title = format!(
        "{} {}, animation {}: before and after",
        edit.track.name, place.1, animation.number
    );
    let id = format!("curve-{}", edit.track.number);
    let size = (WIDTH, plot.below());
    Ok(html::picture(&id, size, &title, &told(&all), &body))
}
