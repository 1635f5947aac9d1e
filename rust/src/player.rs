use crate::answers::{Edited, Tick};
use crate::formats::{Name, next_name};
use crate::keys::{Keys, on_keys, read_keys};
use crate::raw::{self, NONE};
use crate::refusal::{Refusal, checked};

/// What is selected and shown, the journal of the edits that can be undone and redone, and the drag that is open.
///
/// A call that is declined leaves the player as it was.
///
/// ```
/// use dovebolt::{Player, example};
///
/// let sheet = example::sheet();
/// let (mut player, mut keys) = Player::load(&sheet)?;
/// player.play(&sheet, Some(0))?;
/// player.tick(&sheet, 0.5, 8.0)?;
/// assert_eq!(player.frame(), 4.0);
///
/// player.key_edit(&sheet, &mut keys, 3, 1, 6.0, 20.0)?;
/// player.undo(&sheet, &mut keys)?;
/// assert_eq!(keys, Player::load(&sheet)?.1);
/// # Ok::<(), dovebolt::Refusal>(())
/// ```
#[derive(Clone, Debug, PartialEq)]
pub struct Player {
    raw: raw::Player,
}

/// `None` is the number that selects nothing.
fn number_of(animation: Option<u16>) -> u16 {
    animation.unwrap_or(NONE)
}

fn tick_of(answer: u8) -> Tick {
    match answer {
        0 => Tick::Idle,
        1 => Tick::Running,
        2 => Tick::Ended,
        3 => Tick::Next,
        other => unreachable!("a tick answers 0 to 3, not {other}"),
    }
}

fn edited_of(unchanged: bool) -> Edited {
    if unchanged {
        Edited::Unchanged
    } else {
        Edited::Made
    }
}

impl Player {
    /// Checks a sheet and takes its keys out of it, with a fresh player. Refusals 1, 4.
    ///
    /// ```
    /// use dovebolt::{Player, Refusal, example};
    ///
    /// let (player, keys) = Player::load(&example::sheet())?;
    /// assert_eq!(player.selection(), None);
    /// assert_eq!(keys.frames.len(), 9);
    /// assert_eq!(Player::load(b"no sheet"), Err(Refusal::Sheet));
    /// # Ok::<(), dovebolt::Refusal>(())
    /// ```
    pub fn load(sheet: &[u8]) -> Result<(Player, Keys), Refusal> {
        let mut keys = Keys::for_sheet(sheet);
        let player = Player::load_into(sheet, &mut keys)?;
        Ok((player, keys))
    }

    /// The same into keys that the caller has. Refusals 1, 3, 4.
    ///
    /// ```
    /// use dovebolt::{Keys, Player, Refusal, example};
    ///
    /// let sheet = example::sheet();
    /// let mut keys = Keys::for_sheet(&sheet);
    /// Player::load_into(&sheet, &mut keys)?;
    /// assert_eq!(keys.values[6], 16.0);
    /// keys.slopes.pop();
    /// assert_eq!(Player::load_into(&sheet, &mut keys), Err(Refusal::KeyLengths));
    /// # Ok::<(), dovebolt::Refusal>(())
    /// ```
    pub fn load_into(sheet: &[u8], keys: &mut Keys) -> Result<Player, Refusal> {
        let Keys {
            frames,
            values,
            slopes,
        } = keys;
        // SAFETY: each pointer has the length of its slice, and the three arrays are lent alone.
        let answer = unsafe {
            raw::menu_load(
                sheet.as_ptr(),
                sheet.len(),
                frames.as_mut_ptr(),
                frames.len(),
                values.as_mut_ptr(),
                values.len(),
                slopes.as_mut_ptr(),
                slopes.len(),
            )
        };
        checked(answer.refusal)?;
        Ok(Player { raw: answer.player })
    }

    /// A player in any state. A state that is broken is declined by each call, with refusal 5.
    ///
    /// ```
    /// use dovebolt::{Player, Refusal, example};
    ///
    /// let sheet = example::sheet();
    /// let (player, _) = Player::load(&sheet)?;
    /// let mut state = *player.as_raw();
    /// state.frame = f32::NAN;
    /// let mut broken = Player::from_raw(state);
    /// assert_eq!(broken.play(&sheet, Some(0)), Err(Refusal::State));
    /// # Ok::<(), dovebolt::Refusal>(())
    /// ```
    pub fn from_raw(raw: raw::Player) -> Player {
        Player { raw }
    }

    /// The state, with every field in reach.
    ///
    /// ```
    /// use dovebolt::{Player, example};
    ///
    /// let (player, _) = Player::load(&example::sheet())?;
    /// assert_eq!(player.as_raw().selection, dovebolt::raw::NONE);
    /// assert_eq!(player.as_raw().journal.track, [0; 128]);
    /// # Ok::<(), dovebolt::Refusal>(())
    /// ```
    pub fn as_raw(&self) -> &raw::Player {
        &self.raw
    }

    /// The selected animation.
    ///
    /// ```
    /// use dovebolt::{Player, example};
    ///
    /// let sheet = example::sheet();
    /// let (mut player, _) = Player::load(&sheet)?;
    /// player.play(&sheet, Some(1))?;
    /// assert_eq!(player.selection(), Some(1));
    /// # Ok::<(), dovebolt::Refusal>(())
    /// ```
    pub fn selection(&self) -> Option<u16> {
        Some(self.raw.selection).filter(|n| *n != NONE)
    }

    /// The frame that is shown.
    ///
    /// ```
    /// use dovebolt::{Player, example};
    ///
    /// let sheet = example::sheet();
    /// let (mut player, _) = Player::load(&sheet)?;
    /// player.pose(&sheet, Some(0), 2.5)?;
    /// assert_eq!(player.frame(), 2.5);
    /// # Ok::<(), dovebolt::Refusal>(())
    /// ```
    pub fn frame(&self) -> f32 {
        self.raw.frame
    }

    /// Whether ticks move the frame.
    ///
    /// ```
    /// use dovebolt::{Player, example};
    ///
    /// let sheet = example::sheet();
    /// let (mut player, _) = Player::load(&sheet)?;
    /// player.play(&sheet, Some(0))?;
    /// assert!(player.playing());
    /// player.pose(&sheet, Some(0), 2.5)?;
    /// assert!(!player.playing());
    /// # Ok::<(), dovebolt::Refusal>(())
    /// ```
    pub fn playing(&self) -> bool {
        self.raw.playing
    }

    /// Whether readings see the selected animation.
    ///
    /// ```
    /// use dovebolt::{Player, example};
    ///
    /// let sheet = example::sheet();
    /// let (mut player, _) = Player::load(&sheet)?;
    /// assert!(!player.preview());
    /// player.pose(&sheet, Some(0), 2.5)?;
    /// assert!(player.preview());
    /// # Ok::<(), dovebolt::Refusal>(())
    /// ```
    pub fn preview(&self) -> bool {
        self.raw.preview
    }

    /// How many edits can be undone.
    ///
    /// ```
    /// use dovebolt::{Player, example};
    ///
    /// let sheet = example::sheet();
    /// let (mut player, mut keys) = Player::load(&sheet)?;
    /// player.pose(&sheet, Some(0), 0.0)?;
    /// player.key_edit(&sheet, &mut keys, 3, 1, 6.0, 20.0)?;
    /// player.key_edit(&sheet, &mut keys, 3, 1, 7.0, 20.0)?;
    /// player.undo(&sheet, &mut keys)?;
    /// assert_eq!(player.reach(), 1);
    /// # Ok::<(), dovebolt::Refusal>(())
    /// ```
    pub fn reach(&self) -> u64 {
        self.raw.reach
    }

    /// How many edits can be redone.
    ///
    /// ```
    /// use dovebolt::{Player, example};
    ///
    /// let sheet = example::sheet();
    /// let (mut player, mut keys) = Player::load(&sheet)?;
    /// player.pose(&sheet, Some(0), 0.0)?;
    /// player.key_edit(&sheet, &mut keys, 3, 1, 6.0, 20.0)?;
    /// player.key_edit(&sheet, &mut keys, 3, 1, 7.0, 20.0)?;
    /// player.undo(&sheet, &mut keys)?;
    /// assert_eq!(player.redoable(), 1);
    /// # Ok::<(), dovebolt::Refusal>(())
    /// ```
    pub fn redoable(&self) -> u64 {
        self.raw.redo
    }

    /// How many edits stand.
    ///
    /// ```
    /// use dovebolt::{Player, example};
    ///
    /// let sheet = example::sheet();
    /// let (mut player, mut keys) = Player::load(&sheet)?;
    /// player.pose(&sheet, Some(0), 0.0)?;
    /// player.key_edit(&sheet, &mut keys, 3, 1, 6.0, 20.0)?;
    /// player.key_edit(&sheet, &mut keys, 3, 1, 7.0, 20.0)?;
    /// player.undo(&sheet, &mut keys)?;
    /// assert_eq!(player.standing(), 1);
    /// # Ok::<(), dovebolt::Refusal>(())
    /// ```
    pub fn standing(&self) -> u64 {
        self.raw.standing
    }

    /// The player as the call left it, or why it was declined.
    pub(crate) fn take(&mut self, answer: raw::Played) -> Result<(), Refusal> {
        checked(answer.refusal)?;
        self.raw = answer.player;
        Ok(())
    }

    /// The same for an edit, a drag or a drop, with what it came to.
    pub(crate) fn take_edited(&mut self, answer: raw::Edited) -> Result<Edited, Refusal> {
        checked(answer.refusal)?;
        self.raw = answer.player;
        Ok(edited_of(answer.unchanged))
    }

    /// Plays an animation from its start; none does nothing. Refusals 1, 5, 6.
    ///
    /// ```
    /// use dovebolt::{Player, Refusal, example};
    ///
    /// let sheet = example::sheet();
    /// let (mut player, _) = Player::load(&sheet)?;
    /// player.play(&sheet, Some(1))?;
    /// assert!(player.playing() && player.frame() == 0.0);
    /// assert_eq!(player.play(&sheet, Some(2)), Err(Refusal::Animation));
    /// assert_eq!(player.selection(), Some(1));
    /// # Ok::<(), dovebolt::Refusal>(())
    /// ```
    pub fn play(&mut self, sheet: &[u8], animation: Option<u16>) -> Result<(), Refusal> {
        // SAFETY: the pointer has the length of its slice.
        let answer =
            unsafe { raw::menu_play(self.raw, sheet.as_ptr(), sheet.len(), number_of(animation)) };
        self.take(answer)
    }

    /// Holds an animation at a frame; none, and a number that the sheet doesn't have, clear the selection.
    /// Refusals 1, 5, 8.
    ///
    /// ```
    /// use dovebolt::{Player, Refusal, example};
    ///
    /// let sheet = example::sheet();
    /// let (mut player, _) = Player::load(&sheet)?;
    /// player.pose(&sheet, Some(0), 2.5)?;
    /// assert_eq!((player.selection(), player.frame()), (Some(0), 2.5));
    /// player.pose(&sheet, None, 2.5)?;
    /// assert_eq!((player.selection(), player.frame()), (None, 0.0));
    /// assert_eq!(player.pose(&sheet, Some(0), f32::NAN), Err(Refusal::NotFinite));
    /// # Ok::<(), dovebolt::Refusal>(())
    /// ```
    pub fn pose(
        &mut self,
        sheet: &[u8],
        animation: Option<u16>,
        frame: f32,
    ) -> Result<(), Refusal> {
        // SAFETY: the pointer has the length of its slice.
        let answer = unsafe {
            raw::menu_pose(
                self.raw,
                sheet.as_ptr(),
                sheet.len(),
                number_of(animation),
                frame,
            )
        };
        self.take(answer)
    }

    /// Lets `dt` seconds pass at `fps` frames a second. Refusals 1, 5, 8.
    ///
    /// ```
    /// use dovebolt::{Player, Tick, example};
    ///
    /// let sheet = example::sheet();
    /// let (mut player, _) = Player::load(&sheet)?;
    /// player.play(&sheet, Some(1))?;
    /// assert_eq!(player.tick(&sheet, 0.5, 60.0)?, Tick::Running);
    /// assert_eq!(player.frame(), 30.0);
    /// # Ok::<(), dovebolt::Refusal>(())
    /// ```
    pub fn tick(&mut self, sheet: &[u8], dt: f32, fps: f32) -> Result<Tick, Refusal> {
        // SAFETY: the pointer has the length of its slice.
        let answer = unsafe { raw::menu_tick(self.raw, sheet.as_ptr(), sheet.len(), dt, fps) };
        checked(answer.refusal)?;
        self.raw = answer.player;
        Ok(tick_of(answer.answer))
    }

    /// The name of the animation that follows the selected one, empty where none does. A tick leaves the selection,
    /// so after [`Tick::Next`] this is the name that the animation ended with. Refusals 1, 6.
    ///
    /// ```
    /// use dovebolt::{Player, Tick, example};
    ///
    /// let sheet = example::sheet();
    /// let (mut player, _) = Player::load(&sheet)?;
    /// player.play(&sheet, Some(0))?;
    /// let mut tick = Tick::Running;
    /// while tick == Tick::Running {
    ///     tick = player.tick(&sheet, 1.0 / 60.0, 60.0)?;
    /// }
    /// assert_eq!(tick, Tick::Next);
    /// assert_eq!(player.next_name(&sheet)?.text(), "Idle");
    /// # Ok::<(), dovebolt::Refusal>(())
    /// ```
    pub fn next_name(&self, sheet: &[u8]) -> Result<Name, Refusal> {
        next_name(sheet, self.raw.selection)
    }

    /// Moves a key of the active animation to a frame and a value, held between its neighbours.
    /// [`Edited::Unchanged`] where that leaves the key bit for bit as it is. Refusals 1, 3 to 6, 15, 7 to 9.
    ///
    /// ```
    /// use dovebolt::{Edited, Player, Refusal, example};
    ///
    /// let sheet = example::sheet();
    /// let (mut player, mut keys) = Player::load(&sheet)?;
    /// player.pose(&sheet, Some(0), 0.0)?;
    /// assert_eq!(player.key_edit(&sheet, &mut keys, 3, 1, 6.0, 20.0), Ok(Edited::Made));
    /// assert_eq!((keys.frames[6], keys.values[6]), (6.0, 20.0));
    /// assert_eq!(player.key_edit(&sheet, &mut keys, 3, 1, 6.0, 20.0), Ok(Edited::Unchanged));
    /// assert_eq!(player.key_edit(&sheet, &mut keys, 3, 2, 6.0, 20.0), Err(Refusal::NoSuch));
    /// # Ok::<(), dovebolt::Refusal>(())
    /// ```
    pub fn key_edit(
        &mut self,
        sheet: &[u8],
        keys: &mut Keys,
        track: u16,
        key: u16,
        frame: f32,
        value: f32,
    ) -> Result<Edited, Refusal> {
        let answer = on_keys!(
            raw::menu_key_edit,
            self.raw,
            sheet,
            keys,
            track,
            key,
            frame,
            value
        );
        self.take_edited(answer)
    }

    /// Gives a Hermite key of the active animation a slope. [`Edited::Unchanged`] where that leaves the key bit for bit as
    /// it is. Refusals 1, 3 to 6, 15, 7, 8, 10.
    ///
    /// ```
    /// use dovebolt::{Edited, Player, Refusal, example};
    ///
    /// let sheet = example::sheet();
    /// let (mut player, mut keys) = Player::load(&sheet)?;
    /// player.pose(&sheet, Some(0), 0.0)?;
    /// assert_eq!(player.slope_edit(&sheet, &mut keys, 3, 1, 0.5), Ok(Edited::Made));
    /// assert_eq!(keys.slopes[6], 0.5);
    /// assert_eq!(player.slope_edit(&sheet, &mut keys, 3, 1, 0.5), Ok(Edited::Unchanged));
    /// assert_eq!(player.slope_edit(&sheet, &mut keys, 0, 1, 0.5), Err(Refusal::NotHermite));
    /// # Ok::<(), dovebolt::Refusal>(())
    /// ```
    pub fn slope_edit(
        &mut self,
        sheet: &[u8],
        keys: &mut Keys,
        track: u16,
        key: u16,
        slope: f32,
    ) -> Result<Edited, Refusal> {
        let answer = on_keys!(
            raw::menu_slope_edit,
            self.raw,
            sheet,
            keys,
            track,
            key,
            slope
        );
        self.take_edited(answer)
    }

    /// Takes the last standing edit back. Refusals 1, 3 to 5, 15, 11.
    ///
    /// ```
    /// use dovebolt::{Player, Refusal, example};
    ///
    /// let sheet = example::sheet();
    /// let (mut player, mut keys) = Player::load(&sheet)?;
    /// player.pose(&sheet, Some(0), 0.0)?;
    /// player.key_edit(&sheet, &mut keys, 3, 1, 6.0, 20.0)?;
    /// player.undo(&sheet, &mut keys)?;
    /// assert_eq!((keys.frames[6], keys.values[6]), (8.0, 16.0));
    /// assert_eq!(player.undo(&sheet, &mut keys), Err(Refusal::NothingToReturn));
    /// # Ok::<(), dovebolt::Refusal>(())
    /// ```
    pub fn undo(&mut self, sheet: &[u8], keys: &mut Keys) -> Result<(), Refusal> {
        let answer = on_keys!(raw::menu_undo, self.raw, sheet, keys);
        self.take(answer)
    }

    /// Makes the edit that was undone last again. Refusals 1, 3 to 5, 15, 11.
    ///
    /// ```
    /// use dovebolt::{Player, example};
    ///
    /// let sheet = example::sheet();
    /// let (mut player, mut keys) = Player::load(&sheet)?;
    /// player.pose(&sheet, Some(0), 0.0)?;
    /// player.key_edit(&sheet, &mut keys, 3, 1, 6.0, 20.0)?;
    /// player.undo(&sheet, &mut keys)?;
    /// player.redo(&sheet, &mut keys)?;
    /// assert_eq!((keys.frames[6], keys.values[6]), (6.0, 20.0));
    /// # Ok::<(), dovebolt::Refusal>(())
    /// ```
    pub fn redo(&mut self, sheet: &[u8], keys: &mut Keys) -> Result<(), Refusal> {
        let answer = on_keys!(raw::menu_redo, self.raw, sheet, keys);
        self.take(answer)
    }

    /// The sheet with the keys as they are now, a dragged one where it is: everything but its two key arrays is copied.
    /// While no edit stands and no drag is open, these are the bytes that were loaded; [`Player::load`] of what was saved
    /// gives the keys that are held. Refusals 1, 3 to 5.
    ///
    /// ```
    /// use dovebolt::{Player, example};
    ///
    /// let sheet = example::sheet();
    /// let (mut player, mut keys) = Player::load(&sheet)?;
    /// player.pose(&sheet, Some(0), 0.0)?;
    /// player.key_edit(&sheet, &mut keys, 3, 1, 6.0, 20.0)?;
    /// let saved = player.save(&sheet, &keys)?;
    ///
    /// let (_, again) = Player::load(&saved)?;
    /// assert_eq!((again.frames[6], again.values[6]), (6.0, 20.0));
    /// assert_eq!(again, keys);
    ///
    /// player.undo(&sheet, &mut keys)?;
    /// assert_eq!(player.save(&sheet, &keys)?, sheet);
    /// # Ok::<(), dovebolt::Refusal>(())
    /// ```
    pub fn save(&self, sheet: &[u8], keys: &Keys) -> Result<Vec<u8>, Refusal> {
        let mut out = vec![0; sheet.len()];
        self.save_into(sheet, keys, &mut out)?;
        Ok(out)
    }

    /// The same into a lent buffer, which must be as long as the sheet. Refusals 1, 3 to 5, 14.
    ///
    /// ```
    /// use dovebolt::{Player, Refusal, example};
    ///
    /// let sheet = example::sheet();
    /// let (mut player, mut keys) = Player::load(&sheet)?;
    /// player.pose(&sheet, Some(0), 0.0)?;
    /// player.key_edit(&sheet, &mut keys, 3, 1, 6.0, 20.0)?;
    /// let mut out = vec![0; sheet.len()];
    /// player.save_into(&sheet, &keys, &mut out)?;
    /// assert_eq!(Player::load(&out)?.1, keys);
    ///
    /// player.undo(&sheet, &mut keys)?;
    /// player.save_into(&sheet, &keys, &mut out)?;
    /// assert_eq!(out, sheet);
    /// assert_eq!(player.save_into(&sheet, &keys, &mut out[1..]), Err(Refusal::SaveLength));
    /// # Ok::<(), dovebolt::Refusal>(())
    /// ```
    pub fn save_into(&self, sheet: &[u8], keys: &Keys, out: &mut [u8]) -> Result<(), Refusal> {
        checked(read_keys!(
            raw::menu_save,
            self.raw,
            sheet,
            keys,
            out.as_mut_ptr(),
            out.len()
        ))
    }
}
