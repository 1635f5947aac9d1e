//! The value axis of a track's picture: its range and its marks, in the channel's unit.

use dovebolt::SheetView;

use super::unit::{Unit, no_such};
use super::words;

/// Room above and below the range, as a part of it: for the keys' labels.
const ROOM: f64 = 0.2;
const MOST_ROWS: usize = 12;

pub struct Axis {
    pub low: f64,
    pub high: f64,
    /// A place between low and high, and its words.
    pub marks: Vec<(f64, String)>,
    /// The stored values of the same marks, where they are others.
    pub stored: Vec<(f64, String)>,
    /// What the marks say.
    pub name: &'static str,
    /// Texture rows from the lowest up; none in other units.
    rows: Vec<u16>,
}

impl Axis {
    /// The axis on which all of these readings have a place.
    pub fn new(unit: Unit, sheet: SheetView, readings: &[f64]) -> Axis {
        match unit {
            Unit::Share => Axis::share(readings),
            Unit::Visible => Axis::visible(),
            Unit::Texture => Axis::textures(sheet, readings),
            Unit::Level => Axis::level(),
            Unit::Degrees => Axis::numbers(unit, "degrees", readings),
            Unit::Times => Axis::numbers(unit, "scale", readings),
            Unit::Plain => Axis::numbers(unit, "number", readings),
        }
    }

    /// Where a reading is between low and high.
    pub fn place(&self, reading: f64) -> f64 {
        let row = self.rows.iter().position(|r| f64::from(*r) == reading);
        row.map_or(reading, |n| n as f64)
    }

    fn within(low: f64, high: f64, name: &'static str, marks: Vec<(f64, String)>) -> Axis {
        let room = (high - low) * ROOM;
        Axis {
            low: low - room,
            high: high + room,
            marks,
            stored: vec![],
            name,
            rows: vec![],
        }
    }

    fn numbers(unit: Unit, name: &'static str, readings: &[f64]) -> Axis {
        let (low, high) = range(readings, (f64::INFINITY, f64::NEG_INFINITY));
        let (low, high) = if low < high {
            (low, high)
        } else if low == high {
            let room = low.abs().max(2.0) * 0.5;
            (low - room, low + room)
        } else {
            (0.0, 1.0) // no key and no reading
        };
        let step = step_of(high - low);
        let room = (high - low) * ROOM;
        let marks = multiples(low - room, high + room, step)
            .map(|x| (x, unit.with_sign(&mark_words(x, step))))
            .collect();
        Axis::within(low, high, name, marks)
    }

    /// 0 to 1, or more where a curve leaves it; the stored values are 255 times as large.
    fn share(readings: &[f64]) -> Axis {
        let (low, high) = range(readings, (0.0, 1.0));
        let step = step_of(high - low);
        let marks: Vec<f64> = multiples(low, high, step).collect();
        let words = |x: &f64| (*x, mark_words(*x, step));
        let stored = |x: &f64| (*x, stored_words(*x * 255.0));
        let name = "reads value / 255";
        Axis {
            stored: marks.iter().map(stored).collect(),
            ..Axis::within(low, high, name, marks.iter().map(words).collect())
        }
    }

    fn level() -> Axis {
        let marks = multiples(0.0, 255.0, 51.0).map(|x| (x, format!("{x}")));
        Axis::within(0.0, 255.0, "level, 0 to 255", marks.collect())
    }

    fn visible() -> Axis {
        let marks = vec![(0.0, "hidden".to_string()), (1.0, "shown".to_string())];
        let name = "shown where the value, cut to a u16, is not 0";
        Axis::within(0.0, 1.0, name, marks)
    }

    /// The rows that occur, each as high as the next.
    fn textures(sheet: SheetView, readings: &[f64]) -> Axis {
        let mut rows: Vec<u16> = readings.iter().map(|r| *r as u16).collect();
        rows.sort();
        rows.dedup();
        let words = |row: u16| match sheet.textures().nth(usize::from(row)) {
            Some(name) => format!("row {row}: {name}"),
            None => no_such(row),
        };
        // Some rows where all would be too close, the first and the last among them.
        let every = rows.len().div_ceil(MOST_ROWS).max(1);
        let last = rows.len().saturating_sub(1);
        let spaced = (0..last).step_by(every).filter(|n| n + every <= last);
        let marked = spaced.chain((!rows.is_empty()).then_some(last));
        let marks = marked.map(|n| (n as f64, words(rows[n]))).collect();
        let (low, high) = match rows.len() {
            0 | 1 => (-1.0, 1.0),
            n => (0.0, (n - 1) as f64),
        };
        Axis {
            rows,
            ..Axis::within(low, high, "texture", marks)
        }
    }

    /// How much room the words of the marks need.
    pub fn width(&self, size: f64) -> f64 {
        let widths = self.marks.iter().map(|(_, w)| words::width(w, size));
        widths.fold(0.0, f64::max)
    }
}

fn range(readings: &[f64], from: (f64, f64)) -> (f64, f64) {
    readings
        .iter()
        .fold(from, |(low, high), x| (low.min(*x), high.max(*x)))
}

/// 1, 2 or 5 times a power of ten: at most six steps in the range.
pub fn step_of(range: f64) -> f64 {
    let power = 10f64.powf((range / 6.0).log10().floor());
    let steps = [1.0, 2.0, 5.0].map(|n| n * power);
    let fits = steps.into_iter().find(|s| range / s <= 6.0);
    fits.unwrap_or(10.0 * power)
}

/// The multiples of a step in a range.
pub fn multiples(low: f64, high: f64, step: f64) -> impl Iterator<Item = f64> {
    let (first, last) = ((low / step - 1e-6).ceil(), (high / step + 1e-6).floor());
    (first as i64..=last as i64).map(move |n| n as f64 * step)
}

/// A multiple of a step, with the digits that the step has.
pub fn mark_words(x: f64, step: f64) -> String {
    let digits = (-(step.log10() + 1e-9).floor()).max(0.0) as usize;
    if digits > 6 || x.abs() >= 1e7 {
        return format!("{x:.2e}");
    }
    let short = format!("{x:.digits$}");
    if short.trim_matches(['-', '0', '.']).is_empty() {
        return "0".to_string();
    }
    short
}

/// A stored value beside a mark, in two digits: the label of a key is exact.
fn stored_words(value: f64) -> String {
    if value.abs() >= 1e5 {
        return format!("{value:.0e}");
    }
    format!("{}", (value * 100.0).round() / 100.0)
}
