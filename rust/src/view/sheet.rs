//! The rows of an accepted sheet: animations, contents, tracks and texture names.

use std::ops::Range;

use super::fields::{NAME, name_at, u16_at};
use crate::address::{Address, Channel, ContentKind};
use crate::formats::Name;
use crate::player::Player;
use crate::refusal::Refusal;

/// Bytes of the sizes at a sheet's start, and of a row.
const SIZES: usize = 12;
const ANIMATION: usize = 28;
const CONTENT: usize = 28;
const TARGET: usize = 14;

/// A sheet that the proved code has accepted, row by row. Each list knows its length.
///
/// ```
/// use dovebolt::{Channel, Curve, PaneChannel, SheetView, example};
///
/// let bytes = example::sheet();
/// let sheet = SheetView::of(&bytes)?;
/// assert_eq!((sheet.animations().len(), sheet.tracks().len(), sheet.key_count()), (2, 5, 9));
/// for track in sheet.tracks_of(0) {
///     println!("track {}: {} {:?}", track.number, track.name, track.channel());
/// }
/// let track = sheet.track(3).unwrap();
/// assert_eq!(track.name.text(), "Logo");
/// assert_eq!(track.channel(), Some(Channel::Pane(PaneChannel::TranslateX)));
/// assert_eq!((track.curve, track.keys()), (Curve::Hermite, 5..7));
/// # Ok::<(), dovebolt::Refusal>(())
/// ```
#[derive(Clone, Copy, Debug, PartialEq, Eq)]
pub struct SheetView<'a> {
    bytes: &'a [u8],
}

/// An animation of a sheet.
#[derive(Clone, Copy, Debug, PartialEq, Eq)]
pub struct Animation {
    pub number: u16,
    /// How many frames it has.
    pub frames: u16,
    pub looping: bool,
    /// The name of the animation that follows.
    pub next: Option<Name>,
}

/// What one animation moves: a pane or a material by its name.
#[derive(Clone, Copy, Debug, PartialEq, Eq)]
pub struct Content {
    pub number: u16,
    pub animation: u16,
    pub kind: ContentKind,
    pub name: Name,
}

/// A target by its row number: one curve of a content.
#[derive(Clone, Copy, Debug, PartialEq, Eq)]
pub struct Track {
    pub number: u16,
    pub content: u16,
    /// The animation, type and name of its content.
    pub animation: u16,
    pub kind: ContentKind,
    pub name: Name,
    pub address: Address,
    pub curve: Curve,
    /// Where its keys begin in each key array, and how many it has.
    pub first_key: u16,
    pub key_count: u16,
}

impl Track {
    /// The channel that it addresses in the pane or the material of its name, if any.
    ///
    /// ```
    /// use dovebolt::{SheetView, example};
    ///
    /// let bytes = example::sheet();
    /// let sheet = SheetView::of(&bytes)?;
    /// let channels: Vec<_> = sheet.tracks().filter_map(|t| t.channel()).collect();
    /// assert_eq!(channels[0].name(), "visible");
    /// assert_eq!(channels[2].name(), "black_red");
    /// # Ok::<(), dovebolt::Refusal>(())
    /// ```
    pub fn channel(&self) -> Option<Channel> {
        self.address.channel(self.kind)
    }

    /// Where its keys are in each array of [`Keys`](crate::Keys).
    ///
    /// ```
    /// use dovebolt::{Player, SheetView, example};
    ///
    /// let bytes = example::sheet();
    /// let (_, keys) = Player::load(&bytes)?;
    /// let track = SheetView::of(&bytes)?.track(3).unwrap();
    /// assert_eq!(keys.values[track.keys()], [0.0, 16.0]);
    /// # Ok::<(), dovebolt::Refusal>(())
    /// ```
    pub fn keys(&self) -> Range<usize> {
        let first = usize::from(self.first_key);
        first..first + usize::from(self.key_count)
    }
}

/// The kind of a curve.
#[repr(u8)]
#[derive(Clone, Copy, Debug, PartialEq, Eq, Hash)]
pub enum Curve {
    /// The value of the key whose number is the frame.
    Constant = 0,
    /// The value of the last key at or before the frame, a whole number 0 to 65,535.
    Step = 1,
    /// A cubic between the keys around the frame, by their values and slopes.
    Hermite = 2,
}

impl Curve {
    /// The curve of this number in a sheet.
    pub fn from_number(number: u8) -> Option<Curve> {
        let all = [Curve::Constant, Curve::Step, Curve::Hermite];
        all.get(usize::from(number)).copied()
    }

    /// Its number in a sheet.
    pub fn number(self) -> u8 {
        self as u8
    }
}

impl<'a> SheetView<'a> {
    /// The view of a sheet, if the proved code accepts it. Refusals 1, 4.
    ///
    /// ```
    /// use dovebolt::{Refusal, SheetView, example};
    ///
    /// assert_eq!(SheetView::of(&example::book()), Err(Refusal::Sheet));
    /// ```
    pub fn of(sheet: &'a [u8]) -> Result<SheetView<'a>, Refusal> {
        Player::load(sheet)?;
        Ok(SheetView { bytes: sheet })
    }

    /// The sheet's bytes, which the calls take.
    pub fn bytes(self) -> &'a [u8] {
        self.bytes
    }

    /// How many keys all tracks have together: the length of each key array.
    pub fn key_count(self) -> usize {
        usize::from(u16_at(self.bytes, 6))
    }

    /// All animations, by number.
    pub fn animations(self) -> impl ExactSizeIterator<Item = Animation> + 'a {
        (0..self.animation_count()).map(move |number| self.animation_row(number))
    }

    /// All contents, by number. Their animations never fall.
    pub fn contents(self) -> impl ExactSizeIterator<Item = Content> + 'a {
        (0..self.content_count()).map(move |number| self.content_row(number))
    }

    /// All tracks, by number. Their contents never fall, and their keys follow one another.
    pub fn tracks(self) -> impl ExactSizeIterator<Item = Track> + 'a {
        (0..self.track_count()).map(move |number| self.track_row(number))
    }

    /// The tracks of one animation.
    pub fn tracks_of(self, animation: u16) -> impl Iterator<Item = Track> + 'a {
        self.tracks().filter(move |t| t.animation == animation)
    }

    /// The texture names, by row.
    pub fn textures(self) -> impl ExactSizeIterator<Item = Name> + 'a {
        let first = self.targets_at() + TARGET * usize::from(self.track_count());
        (0..u16_at(self.bytes, 8))
            .map(move |row| name_at(self.bytes, first + NAME * usize::from(row)))
    }

    /// The animation of this number.
    pub fn animation(self, number: u16) -> Option<Animation> {
        (number < self.animation_count()).then(|| self.animation_row(number))
    }

    /// The track of this number.
    pub fn track(self, number: u16) -> Option<Track> {
        (number < self.track_count()).then(|| self.track_row(number))
    }

    fn animation_count(self) -> u16 {
        u16_at(self.bytes, 0)
    }

    fn content_count(self) -> u16 {
        u16_at(self.bytes, 2)
    }

    fn track_count(self) -> u16 {
        u16_at(self.bytes, 4)
    }

    fn contents_at(self) -> usize {
        SIZES + ANIMATION * usize::from(self.animation_count())
    }

    fn targets_at(self) -> usize {
        self.contents_at() + CONTENT * usize::from(self.content_count())
    }

    fn animation_row(self, number: u16) -> Animation {
        let at = SIZES + ANIMATION * usize::from(number);
        Animation {
            number,
            frames: u16_at(self.bytes, at),
            looping: self.bytes[at + 2] == 1,
            next: (self.bytes[at + 3] == 1).then(|| name_at(self.bytes, at + 4)),
        }
    }

    fn content_row(self, number: u16) -> Content {
        let at = self.contents_at() + CONTENT * usize::from(number);
        let kind = ContentKind::from_number(self.bytes[at + 1]);
        Content {
            number,
            animation: u16::from(self.bytes[at]),
            kind: kind.expect("a type is 0 to 4 in a checked sheet"),
            name: name_at(self.bytes, at + 4),
        }
    }

    fn track_row(self, number: u16) -> Track {
        let at = self.targets_at() + TARGET * usize::from(number);
        let row = &self.bytes[at..at + TARGET];
        let content = self.content_row(u16_at(row, 0));
        let curve = Curve::from_number(row[8]);
        Track {
            number,
            content: content.number,
            animation: content.animation,
            kind: content.kind,
            name: content.name,
            address: Address {
                code: [row[4], row[5], row[6], row[7]],
                raw: row[3],
                layer: row[2],
            },
            curve: curve.expect("a curve is 0 to 2 in a checked sheet"),
            first_key: u16_at(row, 10),
            key_count: u16_at(row, 12),
        }
    }
}
