//! Times of two calls, taken in turn, so that what else the machine does meets
//! both alike.

use std::time::{Duration, Instant};

const ROUNDS: usize = 51;
const ROUND: Duration = Duration::from_micros(400);

/// Of the rounds the least, the median, and the tenth part of them below and
/// above. Of a ratio, `least` is the ratio of the two leasts; the rest is of the
/// ratios that the rounds have.
#[derive(Clone, Copy, Debug, PartialEq)]
pub struct Figure {
    pub least: f64,
    pub median: f64,
    pub low: f64,
    pub high: f64,
}

impl Figure {
    fn of(mut rounds: Vec<f64>) -> Self {
        rounds.sort_by(f64::total_cmp);
        let at = |part: usize| rounds[(rounds.len() - 1) * part / 10];
        Self {
            least: at(0),
            median: at(5),
            low: at(1),
            high: at(9),
        }
    }

    /// Each call did the work `times` over.
    pub fn each_of(self, times: usize) -> Self {
        let [least, median, low, high] =
            [self.least, self.median, self.low, self.high].map(|x| x / times as f64);
        Self {
            least,
            median,
            low,
            high,
        }
    }
}

pub type Call<'a> = &'a mut dyn FnMut();

/// How many calls fill a round.
fn calls_of(call: Call) -> usize {
    let mut calls = 1;
    loop {
        let start = Instant::now();
        (0..calls).for_each(|_| call());
        if start.elapsed() >= ROUND {
            return calls;
        }
        calls *= 2;
    }
}

/// Microseconds a call.
fn round(calls: usize, call: Call) -> f64 {
    let start = Instant::now();
    (0..calls).for_each(|_| call());
    start.elapsed().as_nanos() as f64 / calls as f64 / 1000.0
}

pub fn alone(call: Call) -> Figure {
    let calls = calls_of(call);
    Figure::of((0..ROUNDS).map(|_| round(calls, call)).collect())
}

/// Ours, what stands beside it (the Rust's, or another call of ours), and ours
/// as a multiple of that.
#[derive(Clone, Copy, Debug)]
pub struct Both {
    pub ours: Figure,
    pub beside: Figure,
    pub ratio: Figure,
}

impl Both {
    /// Rounds that were taken in turn.
    fn of(ours: Vec<f64>, beside: Vec<f64>) -> Self {
        let ratios = ours.iter().zip(&beside).map(|(x, y)| x / y).collect();
        let (ours, beside) = (Figure::of(ours), Figure::of(beside));
        Self {
            ours,
            beside,
            ratio: Figure {
                least: ours.least / beside.least,
                ..Figure::of(ratios)
            },
        }
    }

    /// Each call did the work `times` over.
    pub fn each_of(self, times: usize) -> Self {
        Self {
            ours: self.ours.each_of(times),
            beside: self.beside.each_of(times),
            ..self
        }
    }
}

pub fn side_by_side(ours: Call, beside: Call) -> Both {
    let calls = [calls_of(ours), calls_of(beside)];
    let mut rounds = [Vec::new(), Vec::new()];
    for _ in 0..ROUNDS {
        rounds[0].push(round(calls[0], ours));
        rounds[1].push(round(calls[1], beside));
    }
    let [ours, beside] = rounds;
    Both::of(ours, beside)
}

#[cfg(test)]
mod tests {
    use super::*;

    #[test]
    fn least_median_and_tenths_of_eleven_rounds() {
        let rounds = [7.0, 1.0, 9.0, 3.0, 11.0, 5.0, 2.0, 10.0, 4.0, 8.0, 6.0];
        let figure = Figure {
            least: 1.0,
            median: 6.0,
            low: 2.0,
            high: 10.0,
        };
        assert_eq!(Figure::of(rounds.to_vec()), figure);
        assert_eq!(figure.each_of(2).least, 0.5);
        assert_eq!(figure.each_of(2).median, 3.0);
    }

    /// The least of the three ratios is 0.5, and the ratio of the medians is 1.
    #[test]
    fn a_ratio_is_of_leasts_and_within_rounds() {
        let both = Both::of(vec![2.0, 3.0, 8.0], vec![4.0, 1.0, 3.0]);
        assert_eq!((both.ours.least, both.ours.median), (2.0, 3.0));
        assert_eq!((both.beside.least, both.beside.median), (1.0, 3.0));
        assert_eq!(both.ratio.least, 2.0);
        assert_eq!(both.ratio.median, 8.0 / 3.0);
        assert_eq!(both.each_of(2).ratio, both.ratio);
    }
}
