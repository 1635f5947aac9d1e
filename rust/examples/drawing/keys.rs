//! The keys of a track in its picture: a diamond each, a handle for its slope, and a label with what is stored.

use dovebolt::{Curve, Keys, Track};

use super::plot::{Plot, dotted};
use super::rect::{Rect, apart, holds, within};
use super::svg;
use super::unit::Unit;
use super::words::{self, exact};

pub const COLOUR: &str = "#c8502a";
const LABEL: f64 = 12.0;
const HIGH: f64 = 14.0;
/// Half a diamond's width.
const HALF: f64 = 6.0;
const HANDLE: f64 = 30.0;
/// How many lines away from its key a label may stand.
const RINGS: usize = 7;

/// So that a line behind a label doesn't cross it.
const HALO: &str = " paint-order=\"stroke\" stroke=\"#ffffff\" stroke-width=\"3\"";

pub struct Key {
    pub frame: f32,
    /// What the value reads as by itself.
    pub reading: f64,
    /// The slope in readings a frame, where there is one to draw.
    pub slope: Option<f64>,
    /// The stored value, and the frame.
    pub label: String,
    /// The whole key in words.
    pub stored: String,
    /// A key that is no more, which is drawn hollow.
    pub past: bool,
}

pub fn of(keys: &Keys, track: &Track, unit: Unit) -> Vec<Key> {
    let key = |(n, place): (usize, usize)| {
        let (value, slope) = (keys.values[place], keys.slopes[place]);
        let stored = keys.frames[place];
        // A Constant curve's key n is the one of frame n.
        let frame = if track.curve == Curve::Constant {
            n as f32
        } else {
            stored
        };
        let sloped =
            track.curve == Curve::Hermite && !matches!(unit, Unit::Visible | Unit::Texture);
        let factor = if unit == Unit::Share { 255.0 } else { 1.0 };
        Key {
            frame,
            reading: unit.reading(value),
            slope: sloped.then(|| f64::from(slope) / factor),
            label: format!("{} at {}", exact(value), exact(frame)),
            stored: format!(
                "key {n}: frame {}, value {}, slope {}",
                exact(stored),
                exact(value),
                exact(slope)
            ),
            past: false,
        }
    };
    track.keys().enumerate().map(key).collect()
}

impl Key {
    fn point(&self, plot: &Plot) -> (f64, f64) {
        (plot.x(f64::from(self.frame)), plot.y(self.reading))
    }

    /// The slope as a line through the key, as much of it as lies in the plot.
    fn handle(&self, plot: &Plot, most: f64) -> Option<[(f64, f64); 2]> {
        let ((x, y), slope) = (self.point(plot), self.slope?);
        let (left, top, right, bottom) = plot.rect;
        let dx = (right - left) / (plot.last - plot.first);
        let dy = -slope / (plot.axis.high - plot.axis.low) * (bottom - top);
        let long = dx.hypot(dy);
        let end = |sign: f64| {
            let at = |part: f64| (x + sign * dx / long * part, y + sign * dy / long * part);
            let ends = (0..=6).rev().map(|n| at(most * f64::from(n) / 6.0));
            ends.into_iter().find(|end| holds(&plot.rect, *end))
        };
        Some([end(-1.0)?, end(1.0)?])
    }

    fn mark(&self, plot: &Plot, long: f64) -> String {
        let (x, y) = self.point(plot);
        let handle = self.handle(plot, long);
        let (fill, edge) = if self.past {
            (svg::CELL, COLOUR)
        } else {
            (COLOUR, svg::CELL)
        };
        format!(
            "<g>{}{}<path d=\"M{:.1} {y:.1}l6 -6l6 6l-6 6z\" fill=\"{fill}\" stroke=\"{edge}\" stroke-width=\"1.5\"/></g>\n",
            svg::title(&self.stored),
            handle.map_or(String::new(), |handle| stroke(handle, 1.4)),
            x - HALF
        )
    }

    /// Where the label may stand, the nearest first: about the key, or `far` above and below it.
    fn places(&self, plot: &Plot, far: bool) -> Vec<Rect> {
        let ((x, y), wide) = (self.point(plot), words::width(&self.label, LABEL));
        let at = |left: f64, top: f64| (left, top, left + wide, top + HIGH);
        let (right_of, left_of) = (x + HALF, x - HALF - wide);
        let lefts = [x - wide * 0.5, x - 4.0, x + 4.0 - wide, right_of, left_of];
        let ring = |n: usize| {
            let away = HALF + 2.0 + HIGH * n as f64;
            let above = lefts.map(|left| at(left, y - away - HIGH));
            above
                .into_iter()
                .chain(lefts.map(|left| at(left, y + away)))
        };
        if far {
            return (1..RINGS).flat_map(ring).collect();
        }
        let beside = [right_of + 4.0, left_of - 4.0].map(|left| at(left, y - HIGH * 0.5));
        ring(0).chain(beside).collect()
    }
}

/// A thin line from a key to its label, where others stand between them.
fn lead(plot: &Plot, key: &Key, place: &Rect) -> Option<[(f64, f64); 2]> {
    let (x, y) = key.point(plot);
    let near = if place.1 > y { place.1 } else { place.3 };
    let far = (near - y).abs() > HALF + HIGH && !(place.1..place.3).contains(&y);
    far.then(|| [(x, y), (x.clamp(place.0, place.2), near)])
}

fn label(key: &Key, place: &Rect, lead: Option<[(f64, f64); 2]>) -> String {
    let lead = lead.map_or(String::new(), |lead| stroke(lead, 0.7));
    lead + &svg::text(place.0, place.3 - 3.0, LABEL, svg::INK, HALO, &key.label)
}

fn stroke([a, b]: [(f64, f64); 2], width: f64) -> String {
    format!(
        "<path d=\"M{:.1} {:.1}L{:.1} {:.1}\" stroke=\"{COLOUR}\" stroke-width=\"{width}\"/>\n",
        a.0, a.1, b.0, b.1
    )
}

/// What a label must keep clear of.
struct Taken {
    dots: Vec<(f64, f64)>,
    diamonds: Vec<Rect>,
    labels: Vec<Rect>,
}

impl Taken {
    fn new(plot: &Plot, keys: &[Key], lines: &[Vec<(f64, f64)>], long: f64) -> Taken {
        let handles = keys.iter().filter_map(|k| k.handle(plot, long));
        let lines = lines.iter().flat_map(|line| dotted(line));
        let around = |(x, y): (f64, f64)| (x - HALF, y - HALF, x + HALF, y + HALF);
        Taken {
            dots: lines.chain(handles.flat_map(|h| dotted(&h))).collect(),
            diamonds: keys.iter().map(|k| around(k.point(plot))).collect(),
            labels: vec![],
        }
    }

    fn free(&self, plot: &Plot, key: &Key, place: &Rect) -> bool {
        let lead = lead(plot, key, place).map_or(vec![], |lead| dotted(&lead));
        within(place, &plot.rect)
            && self
                .labels
                .iter()
                .chain(&self.diamonds)
                .all(|t| apart(t, place))
            && !self.dots.iter().any(|dot| holds(place, *dot))
            && !self
                .labels
                .iter()
                .any(|t| lead.iter().any(|dot| holds(t, *dot)))
    }
}

/// The marks of the keys and the labels that have room, those near their keys first, and how many have none. A label
/// crosses no line and no other label.
pub fn draw(plot: &Plot, keys: &[Key], lines: &[Vec<(f64, f64)>]) -> (String, usize) {
    // Handles of keys that are close are short.
    let long = HANDLE.min((plot.rect.2 - plot.rect.0) / (keys.len() * 2) as f64);
    let mut taken = Taken::new(plot, keys, lines, long);
    let marks: String = keys.iter().map(|key| key.mark(plot, long)).collect();
    let mut labels = String::new();
    let mut without: Vec<&Key> = keys.iter().collect();
    for far in [false, true] {
        without.retain(|key| {
            let mut places = key.places(plot, far).into_iter();
            let Some(place) = places.find(|place| taken.free(plot, key, place)) else {
                return true;
            };
            let lead = lead(plot, key, &place);
            labels += &label(key, &place, lead);
            taken.labels.push(place);
            taken.dots.extend(lead.iter().flat_map(|lead| dotted(lead)));
            false
        });
    }
    (marks + &labels, without.len())
}
