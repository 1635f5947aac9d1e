//! Animations that end, with a next name of every length and without one.

use super::{Call, Tick};
use crate::format::book::Book;
use crate::format::sheet::Sheet;
use crate::format::{NAME, Name};
use crate::random::Random;
use crate::sheets::{damage, names};

/// Names of each length.
const NAMES: u64 = 8;

/// The animation that ends; the one before it has a next name of its own.
const ENDING: u16 = 1;

/// An animation's frame counts.
pub const FRAME_COUNTS: [u16; 4] = [0, 1, 60, 65_535];

/// Sheets with each name and each frame count, looping or not, and lists that
/// play the animation to its end.
pub fn each() -> impl Iterator<Item = (Sheet, Vec<Call>)> {
    nexts().flat_map(|next| {
        let ends = FRAME_COUNTS.map(|count| (count, 0));
        let loops = FRAME_COUNTS.map(|count| (count, 1));
        let all = ends.into_iter().chain(loops);
        all.map(move |(count, looping)| (sheet(next, count, looping), list(count)))
    })
}

/// The base, in which no animation ends, as both loop; and it with both ending:
/// the first with a next name, and the first without one.
pub fn pairs() -> [(Sheet, Book); 3] {
    let (base, book) = damage::base_pair();
    let mut named = base.clone();
    named.animations.iter_mut().for_each(|row| row.looping = 0);
    let mut unnamed = named.clone();
    unnamed.animations.reverse();
    [base, named, unnamed].map(|sheet| (sheet, book.clone()))
}

/// No name, and names of each length.
fn nexts() -> impl Iterator<Item = Option<Name>> {
    let names = (0..NAMES).flat_map(|seed| {
        let mut random = Random::new(seed);
        (0..=NAME).map(move |length| Some(names::of_length(&mut random, length)))
    });
    [None].into_iter().chain(names)
}

fn sheet(next: Option<Name>, frame_count: u16, looping: u8) -> Sheet {
    let mut sheet = damage::sheet::base();
    let row = &mut sheet.animations[usize::from(ENDING)];
    (row.frame_count, row.looping) = (frame_count, looping);
    row.next_present = u8::from(next.is_some());
    row.next = next.unwrap_or_default();
    sheet
}

/// Half a frame before the end, past it, and once more when it has ended; then
/// the name by itself, and the sheet that it is in saved.
fn list(frame_count: u16) -> Vec<Call> {
    let tick = |frames: f32| Call::Tick {
        dt: frames,
        fps: 1.0,
    };
    vec![
        Call::Play(ENDING),
        tick(f32::from(frame_count) - 0.5),
        tick(1.0),
        tick(1.0),
        Call::NextName(ENDING),
        Call::Save { short: 0 },
    ]
}

/// How many next names of each length ticks ended with, how many of them have
/// characters of more than one byte, and how many ticks ended without one.
#[derive(Clone, Copy, Debug, Default)]
pub struct NextNames {
    pub of_length: [u64; NAME + 1],
    pub wide: u64,
    pub without: u64,
}

impl NextNames {
    pub fn add(&mut self, tick: &Tick) {
        match tick {
            Tick::Next(name) => {
                let length = name.iter().rposition(|&byte| byte != 0);
                self.of_length[length.map_or(0, |last| last + 1)] += 1;
                self.wide += u64::from(!name.is_ascii());
            }
            Tick::Ended => self.without += 1,
            Tick::Idle | Tick::Running => {}
        }
    }

    pub fn all(&self) -> u64 {
        self.of_length.iter().sum()
    }
}
