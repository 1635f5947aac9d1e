use crate::formats::key_count;

/// A call that may change the keys.
macro_rules! on_keys {
    ($call:path, $player:expr, $sheet:expr, $keys:expr $(, $more:expr)*) => {{
        let Keys { frames, values, slopes } = $keys;
        // SAFETY: each pointer has the length of its slice, and the three arrays are lent alone.
        unsafe {
            $call(
                $player,
                $sheet.as_ptr(),
                $sheet.len(),
                frames.as_mut_ptr(),
                frames.len(),
                values.as_mut_ptr(),
                values.len(),
                slopes.as_mut_ptr(),
                slopes.len(),
                $($more),*
            )
        }
    }};
}

/// A call that reads the keys.
macro_rules! read_keys {
    ($call:path, $player:expr, $sheet:expr, $keys:expr $(, $more:expr)*) => {{
        let Keys { frames, values, slopes } = $keys;
        // SAFETY: each pointer has the length of its slice, and an output among `more` is lent alone.
        unsafe {
            $call(
                $player,
                $sheet.as_ptr(),
                $sheet.len(),
                frames.as_ptr(),
                frames.len(),
                values.as_ptr(),
                values.len(),
                slopes.as_ptr(),
                slopes.len(),
                $($more),*
            )
        }
    }};
}

pub(crate) use {on_keys, read_keys};

/// One key: a point of a curve.
///
/// ```
/// use dovebolt::{Key, Player, example};
///
/// let sheet = example::sheet();
/// let (mut player, keys) = Player::load(&sheet)?;
/// player.pose(&sheet, Some(0), 0.0)?;
/// player.open_drag(&sheet, &keys, 3, 1)?;
/// let start = player.dragging().unwrap().start;
/// assert_eq!(start, Key { frame: 8.0, value: 16.0, slope: 0.0 });
/// # Ok::<(), dovebolt::Refusal>(())
/// ```
#[derive(Clone, Copy, Debug, Default, PartialEq)]
pub struct Key {
    pub frame: f32,
    pub value: f32,
    pub slope: f32,
}

/// The keys of all tracks, as three arrays in sheet order. Calls accept them where each is as long as the sheet has
/// keys and all keep the key rules.
///
/// ```
/// use dovebolt::{Player, Refusal, example};
///
/// let sheet = example::sheet();
/// let (mut player, mut keys) = Player::load(&sheet)?;
/// keys.frames[6] = -1.0; // below the key before it
/// assert_eq!(player.undo(&sheet, &mut keys), Err(Refusal::KeyRules));
/// # Ok::<(), dovebolt::Refusal>(())
/// ```
#[derive(Clone, Debug, Default, PartialEq)]
pub struct Keys {
    pub frames: Vec<f32>,
    pub values: Vec<f32>,
    pub slopes: Vec<f32>,
}

impl Keys {
    /// Arrays of the sheet's length, all zero, to load into.
    ///
    /// ```
    /// use dovebolt::{Keys, example};
    ///
    /// let keys = Keys::for_sheet(&example::sheet());
    /// assert_eq!(keys.slopes, [0.0; 9]);
    /// ```
    pub fn for_sheet(sheet: &[u8]) -> Keys {
        let zeros = vec![0.0; key_count(sheet)];
        Keys {
            frames: zeros.clone(),
            values: zeros.clone(),
            slopes: zeros,
        }
    }
}
