//! What the times are to be at most, and which are not. Judged by the median.

use crate::tables::{MenuTimes, ShapeTimes};
use crate::timing::{Both, Figure};

pub struct Aim {
    what: &'static str,
    most: f64,
    measured: f64,
    /// What both numbers count.
    unit: &'static str,
}

/// Microseconds of a call that moves the player.
const MOVE: f64 = 20.0;

const MICROS: &str = "µs";
const THE_RUST: &str = "× the Rust";
const EVALUATE: &str = "× the Rust's `evaluate`";
const LOADING: &str = "× loading";

impl Aim {
    fn time(what: &'static str, most: f64, figure: Figure) -> Self {
        Self {
            what,
            most,
            measured: figure.median,
            unit: MICROS,
        }
    }

    fn ratio(what: &'static str, most: f64, unit: &'static str, both: Both) -> Self {
        Self {
            what,
            most,
            measured: both.ratio.median,
            unit,
        }
    }

    fn met(&self) -> bool {
        self.measured <= self.most
    }

    /// The row of the table.
    pub fn cells(&self) -> [String; 4] {
        let met = if self.met() { "met" } else { "missed" };
        [
            self.what.to_string(),
            format!("{} {}", self.most, self.unit),
            format!("{:.3}", self.measured),
            met.to_string(),
        ]
    }

    /// Where it is missed, by how much.
    pub fn words(&self) -> Option<String> {
        let Self {
            what,
            most,
            measured,
            unit,
        } = self;
        let over = measured - most;
        let percent = 100.0 * over / most;
        (!self.met()).then(|| {
            format!(
                "Missed: {what}: {measured:.3} {unit}, \
                 {over:.3} ({percent:.1} %) above the aim of {most}."
            )
        })
    }
}

/// A row is judged with a plan that is made once, as a table of frames makes it.
pub fn all(typical: &MenuTimes, full: &MenuTimes, shapes: &ShapeTimes) -> Vec<Aim> {
    vec![
        Aim::ratio("full, a row of a plan", 0.3, EVALUATE, full.planned_row),
        Aim::ratio(
            "full, whole reading with its checks",
            1.0,
            EVALUATE,
            full.whole_reading,
        ),
        Aim::time("full, checks of a reading", 4.0, full.checks),
        Aim::ratio(
            "typical, a row of a plan",
            0.3,
            EVALUATE,
            typical.planned_row,
        ),
        Aim::ratio("three UV layers", 1.0, THE_RUST, shapes.uvs),
        Aim::ratio("corners", 1.15, THE_RUST, shapes.corners),
        Aim::time("full, play", MOVE, full.play.ours),
        Aim::time("full, tick", MOVE, full.tick.ours),
        Aim::time("full, key edit", MOVE, full.edit.ours),
        Aim::time("full, undo or redo", MOVE, full.undo),
        Aim::ratio("full, saving", 1.5, LOADING, full.save),
    ]
}

/// The program's status: 1 where an aim is missed.
pub fn status(aims: &[Aim]) -> u8 {
    u8::from(!aims.iter().all(Aim::met))
}

#[cfg(test)]
mod tests {
    use super::*;

    fn aim(measured: f64) -> Aim {
        Aim {
            what: "a call",
            most: 0.5,
            measured,
            unit: LOADING,
        }
    }

    #[test]
    fn a_met_aim_has_no_words() {
        for measured in [0.25, 0.5] {
            assert_eq!(aim(measured).words(), None);
            assert_eq!(aim(measured).cells()[3], "met");
        }
        assert_eq!(status(&[aim(0.25), aim(0.5)]), 0);
    }

    #[test]
    fn a_missed_aim_says_by_how_much_and_fails() {
        let words = "Missed: a call: 0.625 × loading, 0.125 (25.0 %) above the aim of 0.5.";
        assert_eq!(aim(0.625).words().as_deref(), Some(words));
        assert_eq!(
            aim(0.625).cells(),
            ["a call", "0.5 × loading", "0.625", "missed"]
        );
        assert_eq!(status(&[aim(0.25), aim(0.625)]), 1);
    }

    /// No number at all is no aim met.
    #[test]
    fn nan_is_missed() {
        assert_eq!(status(&[aim(f64::NAN)]), 1);
    }
}
