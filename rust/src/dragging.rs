//! Dragging a key: it is moved any number of times, and undo sees one edit or none.

use crate::answers::Edited;
use crate::keys::{Key, Keys, on_keys, read_keys};
use crate::player::Player;
use crate::raw;
use crate::refusal::Refusal;

/// A drag that is open: one key that is moved any number of times, until a drop leaves it there, as one edit at most, or
/// an abandon puts it back. Edits, undo and redo are declined meanwhile.
///
/// ```
/// use dovebolt::{Drag, Key, Player, example};
///
/// let sheet = example::sheet();
/// let (mut player, mut keys) = Player::load(&sheet)?;
/// player.pose(&sheet, Some(0), 0.0)?;
/// player.open_drag(&sheet, &keys, 3, 1)?;
/// player.drag(&sheet, &mut keys, 6.0, 20.0)?;
/// let start = Key { frame: 8.0, value: 16.0, slope: 0.0 };
/// assert_eq!(player.dragging(), Some(Drag { track: 3, key: 1, start, moved: true }));
/// # Ok::<(), dovebolt::Refusal>(())
/// ```
#[derive(Clone, Copy, Debug, PartialEq)]
pub struct Drag {
    pub track: u16,
    pub key: u16,
    /// The key as it was when the drag was opened.
    pub start: Key,
    /// Whether a drag was accepted since then. Without one [`Player::drop_drag`] leaves no edit.
    pub moved: bool,
}

impl Player {
    /// The drag that is open.
    ///
    /// ```
    /// use dovebolt::{Player, example};
    ///
    /// let sheet = example::sheet();
    /// let (mut player, keys) = Player::load(&sheet)?;
    /// assert_eq!(player.dragging(), None);
    /// player.pose(&sheet, Some(0), 0.0)?;
    /// player.open_drag(&sheet, &keys, 3, 1)?;
    /// let drag = player.dragging().unwrap();
    /// assert_eq!((drag.track, drag.key, drag.start.frame, drag.moved), (3, 1, 8.0, false));
    /// # Ok::<(), dovebolt::Refusal>(())
    /// ```
    pub fn dragging(&self) -> Option<Drag> {
        let raw::Drag {
            open,
            moved,
            track,
            key,
            start_frame: frame,
            start_value: value,
            start_slope: slope,
        } = self.as_raw().drag;
        let start = Key {
            frame,
            value,
            slope,
        };
        open.then_some(Drag {
            track,
            key,
            start,
            moved,
        })
    }

    /// Opens a drag of a key of the active animation, and remembers the key as it is. [`Player::drag`] then moves it, any
    /// number of times; [`Player::drop_drag`] or [`Player::abandon_drag`] closes the drag.
    ///
    /// While it is open, edits, undo, redo and another opening are declined by 15. Plays, poses, ticks, readings and saves
    /// go on and see the key where it is. Refusals 1, 3 to 6, 15, 7.
    ///
    /// ```
    /// use dovebolt::{Player, Refusal, example};
    ///
    /// let sheet = example::sheet();
    /// let (mut player, mut keys) = Player::load(&sheet)?;
    /// assert_eq!(player.open_drag(&sheet, &keys, 3, 1), Err(Refusal::Animation));
    /// player.pose(&sheet, Some(0), 0.0)?;
    /// assert_eq!(player.open_drag(&sheet, &keys, 3, 2), Err(Refusal::NoSuch));
    /// player.open_drag(&sheet, &keys, 3, 1)?;
    /// assert_eq!(player.open_drag(&sheet, &keys, 0, 0), Err(Refusal::DragState));
    /// assert_eq!(player.undo(&sheet, &mut keys), Err(Refusal::DragState));
    /// player.play(&sheet, Some(1))?;
    /// assert!(player.dragging().is_some());
    /// # Ok::<(), dovebolt::Refusal>(())
    /// ```
    pub fn open_drag(
        &mut self,
        sheet: &[u8],
        keys: &Keys,
        track: u16,
        key: u16,
    ) -> Result<(), Refusal> {
        let answer = read_keys!(raw::menu_open_drag, *self.as_raw(), sheet, keys, track, key);
        self.take(answer)
    }

    /// Moves the opened key to a frame and a value as [`Player::key_edit`] does, whatever animation is active by now.
    /// Nothing is counted, and what can be undone or redone stays. [`Edited::Unchanged`] where that leaves the key bit for
    /// bit as it is now; it is an accepted drag too, and sets [`Drag::moved`]. Refusals 1, 3 to 5, 15, 8, 9.
    ///
    /// ```
    /// use dovebolt::{Edited, PaneChannel, Player, Reading, Refusal, example};
    ///
    /// let (sheet, book) = (example::sheet(), example::book());
    /// let (mut player, mut keys) = Player::load(&sheet)?;
    /// player.pose(&sheet, Some(0), 6.0)?;
    /// assert_eq!(player.drag(&sheet, &mut keys, 6.0, 20.0), Err(Refusal::DragState));
    /// player.open_drag(&sheet, &keys, 3, 1)?;
    /// for step in 0..40 {
    ///     let value = step as f32;
    ///     player.drag(&sheet, &mut keys, 6.0, value)?;
    ///     let translate_x = player.read_pane(&sheet, &book, &keys, 1, PaneChannel::TranslateX)?;
    ///     assert_eq!(translate_x, Reading::Number(value));
    /// }
    /// assert_eq!(player.reach(), 0);
    /// assert_eq!(player.drag(&sheet, &mut keys, 6.0, 39.0), Ok(Edited::Unchanged));
    /// assert_eq!(player.drag(&sheet, &mut keys, f32::NAN, 0.0), Err(Refusal::NotFinite));
    /// assert_eq!((keys.frames[6], keys.values[6]), (6.0, 39.0));
    /// # Ok::<(), dovebolt::Refusal>(())
    /// ```
    pub fn drag(
        &mut self,
        sheet: &[u8],
        keys: &mut Keys,
        frame: f32,
        value: f32,
    ) -> Result<Edited, Refusal> {
        let answer = on_keys!(raw::menu_drag, *self.as_raw(), sheet, keys, frame, value);
        self.take_edited(answer)
    }

    /// Closes the drag and leaves the key where it is. However often it was moved, that is one edit, and one undo takes it
    /// back to where it was when the drag was opened; as with any edit, nothing can be redone then.
    /// [`Edited::Unchanged`] where no drag was accepted or the key has the bits that it had when the drag was opened: there
    /// is no edit, and what can be redone stays. Refusals 1, 3 to 5, 15.
    ///
    /// ```
    /// use dovebolt::{Edited, Player, Refusal, example};
    ///
    /// let sheet = example::sheet();
    /// let (mut player, mut keys) = Player::load(&sheet)?;
    /// player.pose(&sheet, Some(0), 0.0)?;
    /// player.open_drag(&sheet, &keys, 3, 1)?;
    /// player.drag(&sheet, &mut keys, 7.0, 18.0)?;
    /// player.drag(&sheet, &mut keys, 6.0, 20.0)?;
    /// assert_eq!(player.drop_drag(&sheet, &keys), Ok(Edited::Made));
    /// assert_eq!((keys.frames[6], keys.values[6]), (6.0, 20.0));
    /// assert_eq!((player.dragging(), player.reach()), (None, 1));
    ///
    /// player.undo(&sheet, &mut keys)?;
    /// assert_eq!((keys.frames[6], keys.values[6]), (8.0, 16.0));
    /// assert_eq!(player.drop_drag(&sheet, &keys), Err(Refusal::DragState));
    ///
    /// player.open_drag(&sheet, &keys, 3, 1)?;
    /// player.drag(&sheet, &mut keys, 7.0, 18.0)?;
    /// player.drag(&sheet, &mut keys, 8.0, 16.0)?; // back where it was
    /// assert_eq!(player.drop_drag(&sheet, &keys), Ok(Edited::Unchanged));
    /// assert_eq!((player.dragging(), player.redoable()), (None, 1));
    /// # Ok::<(), dovebolt::Refusal>(())
    /// ```
    pub fn drop_drag(&mut self, sheet: &[u8], keys: &Keys) -> Result<Edited, Refusal> {
        let answer = read_keys!(raw::menu_drop_drag, *self.as_raw(), sheet, keys);
        self.take_edited(answer)
    }

    /// Closes the drag and puts the key back as it was when the drag was opened. That leaves no edit: nothing is counted,
    /// and what can be undone or redone stays. Refusals 1, 3 to 5, 15.
    ///
    /// ```
    /// use dovebolt::{Player, Refusal, example};
    ///
    /// let sheet = example::sheet();
    /// let (mut player, mut keys) = Player::load(&sheet)?;
    /// player.pose(&sheet, Some(0), 0.0)?;
    /// player.open_drag(&sheet, &keys, 3, 1)?;
    /// player.drag(&sheet, &mut keys, 6.0, 20.0)?;
    /// player.abandon_drag(&sheet, &mut keys)?;
    /// assert_eq!((keys.frames[6], keys.values[6]), (8.0, 16.0));
    /// assert_eq!((player.dragging(), player.reach()), (None, 0));
    /// assert_eq!(player.abandon_drag(&sheet, &mut keys), Err(Refusal::DragState));
    /// # Ok::<(), dovebolt::Refusal>(())
    /// ```
    pub fn abandon_drag(&mut self, sheet: &[u8], keys: &mut Keys) -> Result<(), Refusal> {
        let answer = on_keys!(raw::menu_abandon_drag, *self.as_raw(), sheet, keys);
        self.take(answer)
    }
}
