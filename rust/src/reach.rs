//! What an edit reaches: of two sets of keys of one sheet, the channels and the panes that can read differently.

use crate::channels::{MaterialChannel, PaneChannel};
use crate::formats::{channel_count, pane_count};
use crate::keys::Keys;
use crate::raw;
use crate::refusal::{Refusal, checked};

/// Bits of a pane's mark.
const OWN: u8 = 1;
const FOLLOWS: u8 = 2;

/// How a pane is touched.
///
/// ```
/// use dovebolt::PaneTouched;
///
/// let parent_and_own = PaneTouched { own: true, follows: true };
/// assert!(parent_and_own.any() && !PaneTouched::default().any());
/// ```
#[derive(Clone, Copy, Debug, Default, PartialEq, Eq, Hash)]
pub struct PaneTouched {
    /// A channel of its own is touched.
    pub own: bool,
    /// Its row of the cascade follows the row above it: a parent hands it another visible or another alpha.
    pub follows: bool,
}

impl PaneTouched {
    /// Whether the pane is touched in either way.
    pub fn any(self) -> bool {
        self.own || self.follows
    }
}

/// What differing keys reach while an animation is active: a mark for each channel of the book, in the order of a whole
/// reading, and one for each pane.
///
/// ```
/// use dovebolt::{PaneChannel, PaneTouched, Player, example, touched};
///
/// let (sheet, book) = (example::sheet(), example::book());
/// let (_, before) = Player::load(&sheet)?;
/// let mut after = before.clone();
/// after.values[6] = 20.0; // track 3, key 1: translate_x of "Logo"
/// let touched = touched(&sheet, &book, &before, &after, 0)?;
/// assert_eq!(touched.pane_channels(1).collect::<Vec<_>>(), [PaneChannel::TranslateX]);
/// assert_eq!(touched.pane(1), PaneTouched { own: true, follows: false });
/// assert!(!touched.pane(0).any());
/// # Ok::<(), dovebolt::Refusal>(())
/// ```
#[derive(Clone, Debug, PartialEq, Eq)]
pub struct Touched {
    /// 1 touched, 0 untouched.
    pub channels: Vec<u8>,
    /// Bit 0: a channel of its own is touched. Bit 1: its row of the cascade follows the row above it.
    pub panes: Vec<u8>,
}

impl Touched {
    /// Whether the channel at this place of a whole reading is touched. [`PaneChannel::place`], [`MaterialChannel::place`]
    /// and [`BookView::place`](crate::BookView::place) say where.
    ///
    /// ```
    /// let touched = dovebolt::Touched { channels: vec![1, 0], panes: vec![] };
    /// assert_eq!((touched.channel(0), touched.channel(1), touched.channel(2)), (true, false, false));
    /// ```
    pub fn channel(&self, place: usize) -> bool {
        self.channels.get(place).is_some_and(|mark| *mark != 0)
    }

    /// How the pane of this number is touched; one that the book doesn't have is not.
    ///
    /// ```
    /// use dovebolt::{PaneTouched, Touched};
    ///
    /// let touched = Touched { channels: vec![], panes: vec![0, 2] };
    /// assert_eq!(touched.pane(1), PaneTouched { own: false, follows: true });
    /// assert_eq!(touched.pane(2), PaneTouched::default());
    /// ```
    pub fn pane(&self, pane: u16) -> PaneTouched {
        let mark = self.panes.get(usize::from(pane)).copied().unwrap_or(0);
        PaneTouched {
            own: mark & OWN != 0,
            follows: mark & FOLLOWS != 0,
        }
    }

    /// The touched channels of a pane.
    ///
    /// ```
    /// use dovebolt::{PaneChannel, Player, example, touched};
    ///
    /// let (sheet, book) = (example::sheet(), example::book());
    /// let (_, before) = Player::load(&sheet)?;
    /// let mut after = before.clone();
    /// after.values[7] = 254.0;
    /// let touched = touched(&sheet, &book, &before, &after, 1)?;
    /// assert_eq!(touched.pane_channels(1).collect::<Vec<_>>(), [PaneChannel::Alpha]);
    /// assert_eq!(touched.pane_channels(0).next(), None);
    /// # Ok::<(), dovebolt::Refusal>(())
    /// ```
    pub fn pane_channels(&self, pane: u16) -> impl Iterator<Item = PaneChannel> + '_ {
        let all = PaneChannel::ALL.into_iter();
        all.filter(move |channel| self.channel(channel.place(pane)))
    }

    /// The touched channels of a material of this book.
    ///
    /// ```
    /// use dovebolt::{MaterialChannel, Player, example, touched};
    ///
    /// let (sheet, book) = (example::sheet(), example::book());
    /// let (_, before) = Player::load(&sheet)?;
    /// let mut after = before.clone();
    /// after.values[4] = 100.0;
    /// let touched = touched(&sheet, &book, &before, &after, 0)?;
    /// let channels: Vec<_> = touched.material_channels(&book, 0).collect();
    /// assert_eq!(channels, [MaterialChannel::BlackRed]);
    /// # Ok::<(), dovebolt::Refusal>(())
    /// ```
    pub fn material_channels<'a>(
        &'a self,
        book: &'a [u8],
        material: u16,
    ) -> impl Iterator<Item = MaterialChannel> + 'a {
        let all = MaterialChannel::ALL.into_iter();
        all.filter(move |channel| self.channel(channel.place(book, material)))
    }

    /// Whether anything is touched.
    ///
    /// ```
    /// use dovebolt::{Player, example, touched};
    ///
    /// let (sheet, book) = (example::sheet(), example::book());
    /// let (_, keys) = Player::load(&sheet)?;
    /// assert!(!touched(&sheet, &book, &keys, &keys, 0)?.any());
    /// # Ok::<(), dovebolt::Refusal>(())
    /// ```
    pub fn any(&self) -> bool {
        let marks = self.channels.iter().chain(&self.panes);
        marks.into_iter().any(|mark| *mark != 0)
    }
}

/// What the keys `after` can change of what the keys `before` show, while this animation is active. Refusals 1, 2, 3, 4, 6;
/// 3 and 4 are of either set of keys.
///
/// A channel is touched where the track that decides it has a key that differs, bit for bit. Whatever is not marked is proved
/// the same with both sets of keys, bit for bit and at every frame, whole or not:
///
/// - a channel that is not touched reads the same;
/// - a pane that is untouched has the same transform, visible and alpha ([`Player::resolve_pane`](crate::Player::resolve_pane))
///   and the same row of the cascade ([`Player::cascade`](crate::Player::cascade)).
///
/// What is marked can differ, and need not. Where a pane is drawn depends on its parents' transforms too: an untouched pane
/// below one that moves is carried along.
///
/// ```
/// use dovebolt::{BookBuilder, PaneChannel, PaneTouched, Player, SheetBuilder, touched};
///
/// let mut sheet = SheetBuilder::new();
/// sheet.animation(8).pane("Menu").hermite(PaneChannel::Alpha, &[(0.0, 0.0, 0.0), (8.0, 255.0, 0.0)]);
/// let mut book = BookBuilder::new();
/// book.pane("Root");
/// book.pane("Menu").parent("Root");
/// book.pane("Text").parent("Menu");
/// let (sheet, book) = (sheet.build()?, book.build()?);
///
/// let (mut player, before) = Player::load(&sheet)?;
/// let mut after = before.clone();
/// player.pose(&sheet, Some(0), 0.0)?;
/// player.key_edit(&sheet, &mut after, 0, 1, 6.0, 255.0)?;
/// let touched = touched(&sheet, &book, &before, &after, 0)?;
/// let panes = [0, 1, 2].map(|pane| touched.pane(pane));
/// assert_eq!(panes[0], PaneTouched::default());
/// assert_eq!(panes[1], PaneTouched { own: true, follows: false });
/// assert_eq!(panes[2], PaneTouched { own: false, follows: true });
/// # Ok::<(), Box<dyn std::error::Error>>(())
/// ```
pub fn touched(
    sheet: &[u8],
    book: &[u8],
    before: &Keys,
    after: &Keys,
    animation: u16,
) -> Result<Touched, Refusal> {
    let mut touched = Touched {
        channels: vec![0; channel_count(book)],
        panes: vec![0; pane_count(book)],
    };
    let Touched { channels, panes } = &mut touched;
    touched_into(sheet, book, before, after, animation, channels, panes)?;
    Ok(touched)
}

/// The same into lent outputs, as long as [`channel_count`] and [`pane_count`] say. Refusals 1, 2, 3, 4, 6, 13.
///
/// ```
/// use dovebolt::{Player, Refusal, example, touched_into};
///
/// let (sheet, book) = (example::sheet(), example::book());
/// let (_, before) = Player::load(&sheet)?;
/// let mut after = before.clone();
/// after.values[6] = 20.0;
/// let (mut channels, mut panes) = ([0; 86], [0; 2]);
/// touched_into(&sheet, &book, &before, &after, 0, &mut channels, &mut panes)?;
/// assert_eq!(panes, [0, 1]);
/// let declined = touched_into(&sheet, &book, &before, &after, 0, &mut channels, &mut panes[1..]);
/// assert_eq!(declined, Err(Refusal::OutputLength));
/// # Ok::<(), dovebolt::Refusal>(())
/// ```
pub fn touched_into(
    sheet: &[u8],
    book: &[u8],
    before: &Keys,
    after: &Keys,
    animation: u16,
    channels: &mut [u8],
    panes: &mut [u8],
) -> Result<(), Refusal> {
    // SAFETY: each pointer has the length of its slice, and both outputs are lent alone.
    checked(unsafe {
        raw::menu_reach(
            sheet.as_ptr(),
            sheet.len(),
            book.as_ptr(),
            book.len(),
            before.frames.as_ptr(),
            before.frames.len(),
            before.values.as_ptr(),
            before.values.len(),
            before.slopes.as_ptr(),
            before.slopes.len(),
            after.frames.as_ptr(),
            after.frames.len(),
            after.values.as_ptr(),
            after.values.len(),
            after.slopes.as_ptr(),
            after.slopes.len(),
            animation,
            channels.as_mut_ptr(),
            channels.len(),
            panes.as_mut_ptr(),
            panes.len(),
        )
    })
}
