//! What calls answer.

use crate::raw::{Vector2f, Vector3f};

/// What a tick came to.
///
/// ```
/// use dovebolt::{Player, Tick, example};
///
/// let sheet = example::sheet();
/// let (mut player, _) = Player::load(&sheet)?;
/// assert_eq!(player.tick(&sheet, 0.5, 8.0)?, Tick::Idle);
/// player.play(&sheet, Some(0))?;
/// assert_eq!(player.tick(&sheet, 0.5, 8.0)?, Tick::Running);
/// assert_eq!(player.tick(&sheet, 0.5, 8.0)?, Tick::Next);
/// assert_eq!(player.next_name(&sheet)?.text(), "Idle");
/// # Ok::<(), dovebolt::Refusal>(())
/// ```
#[derive(Clone, Copy, Debug, PartialEq, Eq, Hash)]
pub enum Tick {
    /// Nothing is selected, or it does not play: nothing moved.
    Idle,
    /// The animation goes on.
    Running,
    /// The animation ended.
    Ended,
    /// The animation ended and names the one that comes next: [`crate::Player::next_name`].
    Next,
}

/// What an edit, a drag or a drop came to. Keys are compared bit for bit, so that −0 and +0 differ.
///
/// ```
/// use dovebolt::{Edited, Player, example};
///
/// let sheet = example::sheet();
/// let (mut player, mut keys) = Player::load(&sheet)?;
/// player.pose(&sheet, Some(0), 0.0)?;
/// assert_eq!(player.key_edit(&sheet, &mut keys, 3, 1, 6.0, 20.0)?, Edited::Made);
/// player.undo(&sheet, &mut keys)?;
/// // where the key is already: what was undone can still be redone
/// assert_eq!(player.key_edit(&sheet, &mut keys, 3, 1, 8.0, 16.0)?, Edited::Unchanged);
/// player.redo(&sheet, &mut keys)?;
/// assert_eq!((keys.frames[6], keys.values[6]), (6.0, 20.0));
/// # Ok::<(), dovebolt::Refusal>(())
/// ```
#[derive(Clone, Copy, Debug, PartialEq, Eq, Hash)]
pub enum Edited {
    /// The edit or drag gave the key other bits; the drop left an edit.
    Made,
    /// The edit or drag left the key the bits that it had; the drop left no edit. The call counts nothing, and what can be
    /// undone or redone stays. After an unchanged drag the drop may still leave an edit.
    Unchanged,
}

/// What one channel reads.
///
/// ```
/// use dovebolt::{PaneChannel, Player, Reading, example};
///
/// let (sheet, book) = (example::sheet(), example::book());
/// let (mut player, keys) = Player::load(&sheet)?;
/// player.pose(&sheet, Some(0), 4.0)?;
/// match player.read_pane(&sheet, &book, &keys, 1, PaneChannel::TranslateX)? {
///     Reading::Number(x) => assert_eq!(x, 8.0),
///     other => panic!("{other:?}"),
/// }
/// # Ok::<(), dovebolt::Refusal>(())
/// ```
#[derive(Clone, Copy, Debug, PartialEq)]
pub enum Reading {
    /// No override.
    Nothing,
    /// A number.
    Number(f32),
    /// Shown or hidden.
    Shown(bool),
    /// A row of the sheet's texture names.
    Row(u16),
    /// A colour's level.
    Level(u8),
}

/// The whole reading of a book: a mark (0 or 1) and a number for each channel, panes first.
/// [`PaneChannel::place`](crate::PaneChannel::place) and [`MaterialChannel::place`](crate::MaterialChannel::place) say where.
///
/// ```
/// let all = dovebolt::Channels { marks: vec![1, 0], numbers: vec![2.5, 0.0] };
/// assert_eq!(all.get(0), Some(2.5));
/// assert_eq!(all.get(1), None);
/// ```
#[derive(Clone, Debug, PartialEq)]
pub struct Channels {
    pub marks: Vec<u8>,
    pub numbers: Vec<f32>,
}

impl Channels {
    /// The number of a channel that is overridden, by its place.
    ///
    /// ```
    /// let all = dovebolt::Channels { marks: vec![1, 0], numbers: vec![0.0, 0.0] };
    /// assert_eq!((all.get(0), all.get(1), all.get(2)), (Some(0.0), None, None));
    /// ```
    pub fn get(&self, place: usize) -> Option<f32> {
        let mark = *self.marks.get(place)?;
        (mark == 1).then(|| self.numbers[place])
    }
}

/// A pane's place: the override, or else the book's.
///
/// ```
/// use dovebolt::{Player, example};
///
/// let (sheet, book) = (example::sheet(), example::book());
/// let (mut player, keys) = Player::load(&sheet)?;
/// player.pose(&sheet, Some(0), 4.0)?;
/// let place = player.resolve_pane(&sheet, &book, &keys, 1)?.transform;
/// assert_eq!((place.translation.x, place.rotation.z, place.scale.y, place.size.x), (8.0, 6.0, 8.0, 9.0));
/// # Ok::<(), dovebolt::Refusal>(())
/// ```
#[derive(Clone, Copy, Debug, Default, PartialEq)]
pub struct Transform {
    pub translation: Vector3f,
    pub rotation: Vector3f,
    pub scale: Vector2f,
    pub size: Vector2f,
}

/// A pane with its overrides.
///
/// ```
/// use dovebolt::{Player, example};
///
/// let (sheet, book) = (example::sheet(), example::book());
/// let (mut player, keys) = Player::load(&sheet)?;
/// player.pose(&sheet, Some(0), 4.0)?;
/// let logo = player.resolve_pane(&sheet, &book, &keys, 1)?;
/// assert_eq!((logo.visible, logo.alpha), (true, 0.2));
/// # Ok::<(), dovebolt::Refusal>(())
/// ```
#[derive(Clone, Copy, Debug, PartialEq)]
pub struct ResolvedPane {
    pub visible: bool,
    pub alpha: f32,
    pub transform: Transform,
}

/// A material layer's texture transform with its overrides.
///
/// ```
/// use dovebolt::{Player, Srt, example};
///
/// let (sheet, book) = (example::sheet(), example::book());
/// let (mut player, keys) = Player::load(&sheet)?;
/// player.pose(&sheet, Some(0), 4.0)?;
/// let Srt { translate, rotate, scale } = player.resolve_srt(&sheet, &book, &keys, 0, 0)?;
/// assert_eq!((translate.x, translate.y, rotate, scale.x, scale.y), (1.0, 2.0, 3.0, 4.0, 5.0));
/// # Ok::<(), dovebolt::Refusal>(())
/// ```
#[derive(Clone, Copy, Debug, Default, PartialEq)]
pub struct Srt {
    pub translate: Vector2f,
    pub rotate: f32,
    pub scale: Vector2f,
}

impl Srt {
    /// The SRT that leaves texture coordinates as they are.
    ///
    /// ```
    /// use dovebolt::{Srt, uvs};
    ///
    /// let Srt { translate, rotate, scale } = Srt::IDENTITY;
    /// let numbers = [translate.x, translate.y, rotate, scale.x, scale.y];
    /// let square = [0.0, 0.0, 1.0, 0.0, 0.0, 1.0, 1.0, 1.0];
    /// assert_eq!(uvs(&square, &numbers)?, uvs(&square, &[])?);
    /// # Ok::<(), dovebolt::Refusal>(())
    /// ```
    pub const IDENTITY: Srt = Srt {
        translate: Vector2f { x: 0.0, y: 0.0 },
        rotate: 0.0,
        scale: Vector2f { x: 1.0, y: 1.0 },
    };
}

/// A pane under its parents, and the influence that it hands its children.
///
/// ```
/// use dovebolt::{Player, example};
///
/// let (sheet, book) = (example::sheet(), example::book());
/// let (mut player, keys) = Player::load(&sheet)?;
/// player.pose(&sheet, Some(0), 4.0)?;
/// let logo = player.cascade(&sheet, &book, &keys)?[1];
/// assert_eq!((logo.visible, logo.alpha, logo.influence), (true, 0.2, 0.2));
/// # Ok::<(), dovebolt::Refusal>(())
/// ```
#[derive(Clone, Copy, Debug, PartialEq)]
pub struct Cascaded {
    pub visible: bool,
    pub alpha: f32,
    pub influence: f32,
}
