//! The plot of a track's picture: where a frame and a reading are, the axes and the line of the readings.

use std::fmt::Write;

use super::axis::{Axis, mark_words, multiples, step_of};
use super::rect::Rect;
use super::svg::{self, MARGIN, WIDTH};
use super::words;

pub const CURVE: &str = "#2f6fb3";
const HEIGHT: f64 = 260.0;
const MOST_LABEL: f64 = 230.0;
const TICK: f64 = 12.0;

/// Left, top, right and bottom of the plot, the frames at its sides, and its value axis.
pub struct Plot {
    pub rect: Rect,
    pub first: f64,
    pub last: f64,
    pub axis: Axis,
}

/// A line through these points.
pub type Stretch = Vec<(f64, f64)>;

impl Plot {
    pub fn new(top: f64, (first, last): (f64, f64), axis: Axis) -> Plot {
        let left = MARGIN + 12.0 + axis.width(TICK).clamp(30.0, MOST_LABEL);
        let right = WIDTH - MARGIN - if axis.stored.is_empty() { 6.0 } else { 44.0 };
        Plot {
            rect: (left, top, right, top + HEIGHT),
            first,
            last,
            axis,
        }
    }

    pub fn x(&self, frame: f64) -> f64 {
        let (left, _, right, _) = self.rect;
        left + (frame - self.first) / (self.last - self.first) * (right - left)
    }

    /// Of a reading.
    pub fn y(&self, reading: f64) -> f64 {
        self.y_of_place(self.axis.place(reading))
    }

    fn y_of_place(&self, place: f64) -> f64 {
        let (_, top, _, bottom) = self.rect;
        bottom - (place - self.axis.low) / (self.axis.high - self.axis.low) * (bottom - top)
    }

    /// How far down the picture reaches below the plot.
    pub fn below(&self) -> f64 {
        self.rect.3 + 50.0
    }

    pub fn axes(&self) -> String {
        let (left, top, right, bottom) = self.rect;
        let mut out = format!(
            "<rect x=\"{left:.1}\" y=\"{top:.1}\" width=\"{:.1}\" height=\"{:.1}\" fill=\"{}\" stroke=\"{}\"/>\n",
            right - left,
            bottom - top,
            svg::CELL,
            svg::LINE
        );
        for (place, words) in &self.axis.marks {
            let y = self.y_of_place(*place);
            let _ = writeln!(
                out,
                "<path d=\"M{left:.1} {y:.1}H{right:.1}\" stroke=\"{}\"/>",
                svg::LINE
            );
            let words = words::cut(words, TICK, MOST_LABEL);
            out += &quiet(left - 8.0, y + 4.0, "end", &words);
        }
        for (place, words) in &self.axis.stored {
            out += &quiet(right + 8.0, self.y_of_place(*place) + 4.0, "start", words);
        }
        out += &quiet(left, top - 8.0, "start", self.axis.name);
        if !self.axis.stored.is_empty() {
            out += &quiet(WIDTH - MARGIN, top - 8.0, "end", "stored value");
        }
        out + &self.frame_marks()
    }

    fn frame_marks(&self) -> String {
        let (left, _, right, bottom) = self.rect;
        let step = step_of(self.last - self.first).max(1.0);
        let mut out = String::new();
        for frame in multiples(self.first, self.last, step) {
            let x = self.x(frame);
            let _ = writeln!(
                out,
                "<path d=\"M{x:.1} {bottom:.1}v5\" stroke=\"{}\"/>",
                svg::QUIET
            );
            out += &quiet(x, bottom + 19.0, "middle", &mark_words(frame, step));
        }
        out + &quiet((left + right) * 0.5, bottom + 37.0, "middle", "frame")
    }

    /// The readings as lines, apart where there is no override. `stepped` goes level to the next reading.
    pub fn stretches(&self, samples: &[(f32, Option<f64>)], stepped: bool) -> Vec<Stretch> {
        let mut out: Vec<Stretch> = vec![];
        let mut before: Option<f64> = None;
        for (n, (frame, reading)) in samples.iter().enumerate() {
            let x = self.x(f64::from(*frame));
            let last = n + 1 == samples.len();
            match (before, *reading, out.last_mut()) {
                (Some(b), r, Some(stretch)) if stepped && (r != before || last) => {
                    stretch.push((x, self.y(b)));
                    stretch.extend(r.filter(|_| r != before).map(|r| (x, self.y(r))));
                }
                (Some(_), Some(r), Some(stretch)) if !stepped => stretch.push((x, self.y(r))),
                (None, Some(r), _) => out.push(vec![(x, self.y(r))]),
                _ => {}
            }
            before = *reading;
        }
        out
    }
}

pub fn quiet(x: f64, y: f64, anchor: &str, words: &str) -> String {
    let anchor = format!(" text-anchor=\"{anchor}\"");
    svg::text(x, y, TICK, svg::QUIET, &anchor, words)
}

/// How a line is drawn; a dashed one is in another ink too.
pub struct Stroke {
    pub colour: &'static str,
    pub more: &'static str,
}

pub const SOLID: Stroke = Stroke {
    colour: CURVE,
    more: "",
};

pub fn line(stretches: &[Stretch], stroke: &Stroke) -> String {
    let mut path = String::new();
    for stretch in stretches {
        for (n, (x, y)) in stretch.iter().enumerate() {
            let _ = write!(path, "{}{x:.1} {y:.1}", if n == 0 { 'M' } else { 'L' });
        }
    }
    let Stroke { colour, more } = stroke;
    format!(
        "<path d=\"{path}\" fill=\"none\" stroke=\"{colour}\" stroke-width=\"2.5\" stroke-linejoin=\"round\"{more}/>\n"
    )
}

/// Points of a line, a few pixels apart.
pub fn dotted(line: &[(f64, f64)]) -> Vec<(f64, f64)> {
    const APART: f64 = 3.0;
    let between = |pair: &[(f64, f64)]| {
        let ((x0, y0), (x1, y1)) = (pair[0], pair[1]);
        let count = ((x1 - x0).hypot(y1 - y0) / APART).ceil().max(1.0) as usize;
        (0..=count).map(move |n| {
            let part = n as f64 / count as f64;
            (x0 + (x1 - x0) * part, y0 + (y1 - y0) * part)
        })
    };
    line.windows(2).flat_map(between).collect()
}
