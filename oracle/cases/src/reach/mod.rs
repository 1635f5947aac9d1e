//! What differing keys reach, in plain words: of two sets of keys of one sheet, the
//! channels that a track with a differing key decides, and the panes with such a
//! channel or below one. And where in time one edited key can be read.

pub mod some;

use crate::curves::CONSTANT;
use crate::format::book::{Book, INFLUENCES_ALPHA, NO_PARENT};
use crate::format::load::Arrays;
use crate::format::sheet::{Sheet, Target};
use crate::readings::addressed::deciding;
use crate::readings::whole::PANE_CHANNELS;

pub const VISIBLE: usize = 10;
pub const ALPHA: usize = 11;

/// The bits of a pane's mark.
pub const OWN: u8 = 1;
pub const FOLLOWS: u8 = 2;

/// Whether the key at a place has the same bits in both.
pub fn same_key(before: &Arrays, after: &Arrays, place: usize) -> bool {
    let mut arrays = before.iter().zip(after);
    arrays.all(|(old, new)| old[place].to_bits() == new[place].to_bits())
}

pub fn same_track(target: &Target, before: &Arrays, after: &Arrays) -> bool {
    target.keys().all(|place| same_key(before, after, place))
}

/// A mark for each channel: 1 where the track that decides it has a differing key.
pub fn channels(
    sheet: &Sheet,
    book: &Book,
    before: &Arrays,
    after: &Arrays,
    animation: usize,
) -> Vec<u8> {
    let differs = |track: usize| !same_track(&sheet.targets[track], before, after);
    let deciding = deciding(sheet, book, animation).into_iter();
    deciding
        .map(|track| track.is_some_and(differs) as u8)
        .collect()
}

/// What a row of the cascade hands on, or is handed: whether visible and the influence
/// on alpha can change.
#[derive(Clone, Copy, Default)]
struct Handed {
    visible: bool,
    influence: bool,
}

/// A mark for each pane, by those of the channels.
pub fn panes(book: &Book, channels: &[u8]) -> Vec<u8> {
    let own = channels.chunks(PANE_CHANNELS);
    own.take(book.panes.len())
        .enumerate()
        .map(|(pane, own)| {
            let above = above(book, channels, pane);
            let follows = above.visible || above.influence;
            OWN * own.contains(&1) as u8 + FOLLOWS * follows as u8
        })
        .collect()
}

fn above(book: &Book, channels: &[u8], pane: usize) -> Handed {
    match book.panes[pane].parent {
        NO_PARENT => Handed::default(),
        parent => handed(book, channels, usize::from(parent)),
    }
}

fn handed(book: &Book, channels: &[u8], pane: usize) -> Handed {
    let above = above(book, channels, pane);
    let marked = |channel| channels[PANE_CHANNELS * pane + channel] == 1;
    let influences = book.panes[pane].flags & INFLUENCES_ALPHA != 0;
    Handed {
        visible: above.visible || marked(VISIBLE),
        influence: above.influence || influences && marked(ALPHA),
    }
}

/// A key of a track.
#[derive(Clone, Copy, Debug, PartialEq)]
pub struct Place {
    pub track: usize,
    pub key: usize,
}

/// The keys that differ.
pub fn differing(sheet: &Sheet, before: &Arrays, after: &Arrays) -> Vec<Place> {
    let mut places = Vec::new();
    for (track, target) in sheet.targets.iter().enumerate() {
        let keys = target.keys().enumerate();
        let differ = keys.filter(|&(_, place)| !same_key(before, after, place));
        places.extend(differ.map(|(key, _)| Place { track, key }));
    }
    places
}

/// Whether a curve can read otherwise at a frame where this key alone differs: of a
/// Constant where the frame picks it, else from the key before it up to the one after
/// it. (These two have one frame before and after.)
pub fn can_differ(sheet: &Sheet, keys: &Arrays, place: Place, frame: f32) -> bool {
    let target = &sheet.targets[place.track];
    let frames = &keys[0][target.keys()];
    if target.curve == CONSTANT {
        return (frame as usize).min(frames.len() - 1) == place.key;
    }
    let from = place.key.checked_sub(1).map(|i| frames[i]);
    let to = frames.get(place.key + 1);
    from.is_none_or(|from| from <= frame) && to.is_none_or(|&to| frame <= to)
}

#[cfg(test)]
mod tests {
    use super::*;
    use crate::curves::{HERMITE, STEP};
    use crate::format::sheet::Animation;
    use crate::reached;

    /// A root, its child and a grandchild; the child's alpha doesn't influence.
    #[test]
    fn rows_follow_the_row_above() {
        let pane = |parent, flags| crate::format::book::Pane {
            parent,
            flags,
            ..reached::book().panes[0]
        };
        let rows = [(NO_PARENT, INFLUENCES_ALPHA), (0, 0), (1, 0)];
        let book = Book {
            panes: rows.map(|(parent, flags)| pane(parent, flags)).to_vec(),
            materials: Vec::new(),
        };
        let marked = |row: usize, channel: usize| {
            let mut channels = vec![0; 3 * PANE_CHANNELS];
            channels[PANE_CHANNELS * row + channel] = 1;
            panes(&book, &channels)
        };
        assert_eq!(marked(0, 0), [OWN, 0, 0]);
        assert_eq!(marked(0, VISIBLE), [OWN, FOLLOWS, FOLLOWS]);
        assert_eq!(marked(0, ALPHA), [OWN, FOLLOWS, FOLLOWS]);
        assert_eq!(marked(1, VISIBLE), [0, OWN, FOLLOWS]);
        assert_eq!(marked(1, ALPHA), [0, OWN, 0]);
    }

    #[test]
    fn a_key_reaches_its_neighbours() {
        let keys = [vec![1.0, 4.0, 9.0], vec![0.0; 3], vec![0.0; 3]];
        let reached = |curve, key| {
            let sheet = Sheet {
                animations: vec![Animation::default()],
                targets: vec![Target {
                    curve,
                    key_count: 3,
                    ..Target::default()
                }],
                ..Sheet::default()
            };
            let place = Place { track: 0, key };
            let frames = [-2.0, 0.0, 1.0, 1.5, 2.0, 4.0, 9.0, 9.5];
            frames.map(|frame| u8::from(can_differ(&sheet, &keys, place, frame)))
        };
        assert_eq!(reached(HERMITE, 0), [1, 1, 1, 1, 1, 1, 0, 0]);
        assert_eq!(reached(STEP, 1), [0, 0, 1, 1, 1, 1, 1, 0]);
        assert_eq!(reached(HERMITE, 2), [0, 0, 0, 0, 0, 1, 1, 1]);
        assert_eq!(reached(CONSTANT, 0), [1, 1, 0, 0, 0, 0, 0, 0]);
        assert_eq!(reached(CONSTANT, 1), [0, 0, 1, 1, 0, 0, 0, 0]);
        assert_eq!(reached(CONSTANT, 2), [0, 0, 0, 0, 1, 1, 1, 1]);
    }
}
