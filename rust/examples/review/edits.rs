//! The tracks that have a key which differs, and which frames such a key can reach.

use dovebolt::{Curve, Keys, Track};

use crate::drawing::samples::Place;
use crate::drawing::words::exact;
use crate::pair::Pair;

/// What an edited track comes to.
pub enum Fate {
    /// It decides this channel.
    Decides(Place),
    /// The track of this number stands behind it and decides its channel.
    Overridden(u16),
    /// It addresses nothing.
    Nothing,
}

pub struct Edit {
    pub track: Track,
    /// The numbers of its keys that differ.
    pub keys: Vec<usize>,
    pub fate: Fate,
}

/// Frames from one to another; without an end where there is none.
#[derive(Clone, Copy, PartialEq)]
pub struct Span {
    pub from: Option<f32>,
    pub to: Option<f32>,
}

impl Span {
    pub fn words(&self) -> String {
        match (self.from, self.to) {
            (None, None) => "every frame".to_string(),
            (None, Some(to)) => format!("every frame up to {}", exact(to)),
            (Some(from), None) => format!("every frame from {} on", exact(from)),
            (Some(from), Some(to)) => format!("frames {} to {}", exact(from), exact(to)),
        }
    }
}

fn bits(keys: &Keys, place: usize) -> [u32; 3] {
    [&keys.frames, &keys.values, &keys.slopes].map(|array| array[place].to_bits())
}

/// Of the tracks that reach the same channel the last counts.
fn fate(pair: &Pair, track: &Track) -> Fate {
    let Some(place) = pair.book.reached(track) else {
        return Fate::Nothing;
    };
    let same = |t: &Track| pair.book.reached(t) == Some(place);
    let last = pair.sheet.tracks_of(track.animation).filter(same).last();
    match last {
        Some(last) if last.number != track.number => Fate::Overridden(last.number),
        _ => Fate::Decides(place),
    }
}

/// In the sheet's order.
pub fn edits(pair: &Pair) -> Vec<Edit> {
    let differing = |track: &Track| -> Vec<usize> {
        let keys = track.keys().enumerate();
        keys.filter(|(_, place)| bits(&pair.before, *place) != bits(&pair.after, *place))
            .map(|(n, _)| n)
            .collect()
    };
    let edit = |track: Track| Edit {
        keys: differing(&track),
        fate: fate(pair, &track),
        track,
    };
    let all = pair.sheet.tracks().map(edit);
    all.filter(|edit| !edit.keys.is_empty()).collect()
}

impl Edit {
    /// The frames at which the curve can differ: for each edited key from the key before it to the key behind it. A key of a
    /// Constant curve holds for the frame of its number.
    pub fn spans(&self, before: &Keys) -> Vec<Span> {
        let own = &before.frames[self.track.keys()];
        let constant = self.track.curve == Curve::Constant;
        let last = own.len() - 1;
        let mut out: Vec<Span> = vec![];
        for &n in &self.keys {
            let from = (n > 0).then(|| if constant { n as f32 } else { own[n - 1] });
            let to = (n < last).then(|| if constant { n as f32 + 1.0 } else { own[n + 1] });
            match out.last_mut() {
                // Spans that meet are one, as those of neighbours, whose own frames may differ too.
                Some(span) if span.to.is_none() || from.is_none() || from <= span.to => {
                    span.to = to
                }
                _ => out.push(Span { from, to }),
            }
        }
        out
    }
}
