//! The rows of an accepted book: panes and materials.

use super::fields::{NAME, name_at, srt_at, u16_at, vector2_at, vector3_at};
use super::sheet::Track;
use crate::address::Channel;
use crate::answers::{Srt, Transform};
use crate::channels::PaneChannel;
use crate::formats::{Name, channel_count};
use crate::player::Player;
use crate::refusal::Refusal;

/// Bytes of the sizes at a book's start, and of a row.
const SIZES: usize = 4;
const PANE: usize = 72;
const MATERIAL: usize = 156;

/// The parent of a pane that has none.
pub(crate) const NO_PARENT: u16 = 65_535;
/// Bits of a pane's flags.
pub(crate) const VISIBLE: u8 = 1;
pub(crate) const INFLUENCES_ALPHA: u8 = 2;

/// The smallest sheet: one animation of no frames. A reading checks a book, and takes a sheet too.
const LEAST_SHEET: [u8; 40] = {
    let mut sheet = [0; 40];
    sheet[0] = 1;
    sheet
};

/// A book that the proved code has accepted, row by row. Each list knows its length.
///
/// ```
/// use dovebolt::{BookView, example};
///
/// let bytes = example::book();
/// let book = BookView::of(&bytes)?;
/// assert_eq!((book.panes().len(), book.materials().len(), book.channel_count()), (2, 1, 86));
/// let logo = book.pane(1).unwrap();
/// assert_eq!((logo.label.text(), logo.parent, logo.alpha), ("Logo".into(), Some(0), 51));
/// assert_eq!(book.materials().next().unwrap().textures[1].text(), "mask");
/// # Ok::<(), dovebolt::Refusal>(())
/// ```
#[derive(Clone, Copy, Debug, PartialEq, Eq)]
pub struct BookView<'a> {
    bytes: &'a [u8],
}

/// A pane of a book, as it is where nothing moves it.
#[derive(Clone, Copy, Debug, PartialEq)]
pub struct Pane {
    pub number: u16,
    pub label: Name,
    /// The number of an earlier pane.
    pub parent: Option<u16>,
    pub visible: bool,
    /// Whether its alpha is a factor of its children's.
    pub influences_alpha: bool,
    pub alpha: u8,
    pub horizontal: Horizontal,
    pub vertical: Vertical,
    pub transform: Transform,
}

/// A material of a book, as it is where nothing moves it.
#[derive(Clone, Copy, Debug, PartialEq)]
pub struct Material {
    pub number: u16,
    pub name: Name,
    pub textures: [Name; 3],
    pub srts: [Srt; 3],
}

/// Where a pane's pivot is from left to right. [`corners`](crate::corners) takes its number.
#[repr(u8)]
#[derive(Clone, Copy, Debug, Default, PartialEq, Eq, Hash)]
pub enum Horizontal {
    #[default]
    Center = 0,
    Left = 1,
    Right = 2,
}

impl Horizontal {
    pub fn from_number(number: u8) -> Option<Horizontal> {
        let all = [Horizontal::Center, Horizontal::Left, Horizontal::Right];
        all.get(usize::from(number)).copied()
    }

    pub fn number(self) -> u8 {
        self as u8
    }
}

/// Where a pane's pivot is from top to bottom. [`corners`](crate::corners) takes its number.
#[repr(u8)]
#[derive(Clone, Copy, Debug, Default, PartialEq, Eq, Hash)]
pub enum Vertical {
    #[default]
    Center = 0,
    Top = 1,
    Bottom = 2,
}

impl Vertical {
    pub fn from_number(number: u8) -> Option<Vertical> {
        let all = [Vertical::Center, Vertical::Top, Vertical::Bottom];
        all.get(usize::from(number)).copied()
    }

    pub fn number(self) -> u8 {
        self as u8
    }
}

impl<'a> BookView<'a> {
    /// The view of a book, if the proved code accepts it. Refusal 2.
    ///
    /// ```
    /// use dovebolt::{BookView, Refusal, example};
    ///
    /// assert_eq!(BookView::of(&example::sheet()), Err(Refusal::Book));
    /// ```
    pub fn of(book: &'a [u8]) -> Result<BookView<'a>, Refusal> {
        let (player, keys) = Player::load(&LEAST_SHEET)?;
        // Pane 0 is in every book.
        player.read_pane(&LEAST_SHEET, book, &keys, 0, PaneChannel::Visible)?;
        Ok(BookView { bytes: book })
    }

    /// The book's bytes, which the calls take.
    pub fn bytes(self) -> &'a [u8] {
        self.bytes
    }

    /// How many channels a whole reading has.
    pub fn channel_count(self) -> usize {
        channel_count(self.bytes)
    }

    /// All panes, by number; a parent comes before its children.
    pub fn panes(self) -> impl ExactSizeIterator<Item = Pane> + 'a {
        (0..self.pane_count()).map(move |number| self.pane_row(number))
    }

    /// All materials, by number.
    pub fn materials(self) -> impl ExactSizeIterator<Item = Material> + 'a {
        (0..self.material_count()).map(move |number| self.material_row(number))
    }

    /// The pane of this number.
    pub fn pane(self, number: u16) -> Option<Pane> {
        (number < self.pane_count()).then(|| self.pane_row(number))
    }

    /// The material of this number.
    pub fn material(self, number: u16) -> Option<Material> {
        (number < self.material_count()).then(|| self.material_row(number))
    }

    /// The number of the pane or the material that a track moves in this book, and which of its channels.
    ///
    /// ```
    /// use dovebolt::{BookView, Channel, MaterialChannel, SheetView, example};
    ///
    /// let (sheet, book) = (example::sheet(), example::book());
    /// let (sheet, book) = (SheetView::of(&sheet)?, BookView::of(&book)?);
    /// let reached = book.reached(&sheet.track(2).unwrap());
    /// assert_eq!(reached, Some((0, Channel::Material(MaterialChannel::BlackRed))));
    /// # Ok::<(), dovebolt::Refusal>(())
    /// ```
    pub fn reached(self, track: &Track) -> Option<(u16, Channel)> {
        let channel = track.channel()?;
        let number = match channel {
            Channel::Pane(_) => self.panes().position(|p| p.label == track.name)?,
            Channel::Material(_) => self.materials().position(|m| m.name == track.name)?,
        };
        Some((number as u16, channel))
    }

    /// Where a whole reading has a channel of the pane or the material of this number.
    ///
    /// ```
    /// use dovebolt::{BookView, Player, SheetView, example};
    ///
    /// let (sheet, book) = (example::sheet(), example::book());
    /// let (mut player, keys) = Player::load(&sheet)?;
    /// player.pose(&sheet, Some(0), 4.0)?;
    /// let all = player.read_all(&sheet, &book, &keys)?;
    /// let view = BookView::of(&book)?;
    /// let (number, channel) = view.reached(&SheetView::of(&sheet)?.track(3).unwrap()).unwrap();
    /// assert_eq!(all.get(view.place(number, channel)), Some(8.0));
    /// # Ok::<(), dovebolt::Refusal>(())
    /// ```
    pub fn place(self, number: u16, channel: Channel) -> usize {
        match channel {
            Channel::Pane(channel) => channel.place(number),
            Channel::Material(channel) => channel.place(self.bytes, number),
        }
    }

    fn pane_count(self) -> u16 {
        u16_at(self.bytes, 0)
    }

    fn material_count(self) -> u16 {
        u16_at(self.bytes, 2)
    }

    fn pane_row(self, number: u16) -> Pane {
        let at = SIZES + PANE * usize::from(number);
        let row = &self.bytes[at..at + PANE];
        let (horizontal, vertical) = (
            Horizontal::from_number(row[28]),
            Vertical::from_number(row[29]),
        );
        Pane {
            number,
            label: name_at(row, 0),
            parent: Some(u16_at(row, NAME)).filter(|parent| *parent != NO_PARENT),
            visible: row[26] & VISIBLE != 0,
            influences_alpha: row[26] & INFLUENCES_ALPHA != 0,
            alpha: row[27],
            horizontal: horizontal.expect("an origin is 0 to 2 in a checked book"),
            vertical: vertical.expect("an origin is 0 to 2 in a checked book"),
            transform: Transform {
                translation: vector3_at(row, 32),
                rotation: vector3_at(row, 44),
                scale: vector2_at(row, 56),
                size: vector2_at(row, 64),
            },
        }
    }

    fn material_row(self, number: u16) -> Material {
        let first = SIZES + PANE * usize::from(self.pane_count());
        let at = first + MATERIAL * usize::from(number);
        let row = &self.bytes[at..at + MATERIAL];
        Material {
            number,
            name: name_at(row, 0),
            textures: [1, 2, 3].map(|n| name_at(row, NAME * n)),
            srts: [96, 116, 136].map(|at| srt_at(row, at)),
        }
    }
}
