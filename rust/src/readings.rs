//! The readings: what the active animation makes of a book's panes and materials.

use crate::answers::{Cascaded, Channels, Reading, ResolvedPane, Srt, Transform};
use crate::channels::{MaterialChannel, PaneChannel};
use crate::formats::{Name, channel_count, pane_count};
use crate::keys::Keys;
use crate::player::Player;
use crate::raw;
use crate::refusal::{Refusal, checked};

/// A call that reads keys and book.
macro_rules! read {
    ($call:path, $player:expr, $sheet:expr, $book:expr, $keys:expr $(, $more:expr)*) => {{
        let Keys { frames, values, slopes } = $keys;
        // SAFETY: each pointer has the length of its slice, and an output among `more` is lent alone.
        unsafe {
            $call(
                *$player.as_raw(),
                $sheet.as_ptr(),
                $sheet.len(),
                $book.as_ptr(),
                $book.len(),
                frames.as_ptr(),
                frames.len(),
                values.as_ptr(),
                values.len(),
                slopes.as_ptr(),
                slopes.len(),
                $($more),*
            )
        }
    }};
}

fn reading_of(answer: raw::ReadOne) -> Result<Reading, Refusal> {
    checked(answer.refusal)?;
    Ok(match answer.kind {
        0 => Reading::Nothing,
        1 => Reading::Number(answer.number),
        2 => Reading::Shown(answer.number != 0.0),
        3 => Reading::Row(answer.number as u16),
        4 => Reading::Level(answer.number as u8),
        other => unreachable!("a reading is of kind 0 to 4, not {other}"),
    })
}

impl Player {
    /// One channel of a pane. Refusals 1 to 5, 7.
    ///
    /// ```
    /// use dovebolt::{PaneChannel, Player, Reading, example};
    ///
    /// let (sheet, book) = (example::sheet(), example::book());
    /// let (mut player, keys) = Player::load(&sheet)?;
    /// player.pose(&sheet, Some(0), 4.0)?;
    /// let translate_x = player.read_pane(&sheet, &book, &keys, 1, PaneChannel::TranslateX)?;
    /// assert_eq!(translate_x, Reading::Number(8.0));
    /// let visible = player.read_pane(&sheet, &book, &keys, 1, PaneChannel::Visible)?;
    /// assert_eq!(visible, Reading::Shown(true));
    /// # Ok::<(), dovebolt::Refusal>(())
    /// ```
    pub fn read_pane(
        &self,
        sheet: &[u8],
        book: &[u8],
        keys: &Keys,
        pane: u16,
        channel: PaneChannel,
    ) -> Result<Reading, Refusal> {
        let channel = channel.number();
        let answer = read!(raw::menu_read_pane, self, sheet, book, keys, pane, channel);
        reading_of(answer)
    }

    /// One channel of a material. Refusals 1 to 5, 7.
    ///
    /// ```
    /// use dovebolt::{MaterialChannel, Player, Reading, example};
    ///
    /// let (sheet, book) = (example::sheet(), example::book());
    /// let (mut player, keys) = Player::load(&sheet)?;
    /// player.pose(&sheet, Some(0), 4.0)?;
    /// let texture = player.read_material(&sheet, &book, &keys, 0, MaterialChannel::Texture0)?;
    /// assert_eq!(texture, Reading::Row(1));
    /// let black_red = player.read_material(&sheet, &book, &keys, 0, MaterialChannel::BlackRed)?;
    /// assert_eq!(black_red, Reading::Level(200));
    /// # Ok::<(), dovebolt::Refusal>(())
    /// ```
    pub fn read_material(
        &self,
        sheet: &[u8],
        book: &[u8],
        keys: &Keys,
        material: u16,
        channel: MaterialChannel,
    ) -> Result<Reading, Refusal> {
        let channel = channel.number();
        let answer = read!(
            raw::menu_read_material,
            self,
            sheet,
            book,
            keys,
            material,
            channel
        );
        reading_of(answer)
    }

    /// Every channel of the book. Refusals 1 to 5.
    ///
    /// ```
    /// use dovebolt::{PaneChannel, Player, example};
    ///
    /// let (sheet, book) = (example::sheet(), example::book());
    /// let (mut player, keys) = Player::load(&sheet)?;
    /// player.pose(&sheet, Some(0), 4.0)?;
    /// let all = player.read_all(&sheet, &book, &keys)?;
    /// assert_eq!(all.get(PaneChannel::TranslateX.place(1)), Some(8.0));
    /// assert_eq!(all.get(PaneChannel::TranslateY.place(1)), None);
    /// # Ok::<(), dovebolt::Refusal>(())
    /// ```
    pub fn read_all(&self, sheet: &[u8], book: &[u8], keys: &Keys) -> Result<Channels, Refusal> {
        let count = channel_count(book);
        let mut all = Channels {
            marks: vec![0; count],
            numbers: vec![0.0; count],
        };
        self.read_all_into(sheet, book, keys, &mut all.marks, &mut all.numbers)?;
        Ok(all)
    }

    /// The same into lent outputs, each as long as [`channel_count`] says. Refusals 1 to 5, 13.
    ///
    /// ```
    /// use dovebolt::{PaneChannel, Player, Refusal, example};
    ///
    /// let (sheet, book) = (example::sheet(), example::book());
    /// let (mut player, keys) = Player::load(&sheet)?;
    /// player.pose(&sheet, Some(0), 4.0)?;
    /// let (mut marks, mut numbers) = ([0; 86], [0.0; 86]);
    /// player.read_all_into(&sheet, &book, &keys, &mut marks, &mut numbers)?;
    /// let place = PaneChannel::TranslateX.place(1);
    /// assert_eq!((marks[place], numbers[place]), (1, 8.0));
    /// let declined = player.read_all_into(&sheet, &book, &keys, &mut marks[1..], &mut numbers);
    /// assert_eq!(declined, Err(Refusal::OutputLength));
    /// # Ok::<(), dovebolt::Refusal>(())
    /// ```
    pub fn read_all_into(
        &self,
        sheet: &[u8],
        book: &[u8],
        keys: &Keys,
        marks: &mut [u8],
        numbers: &mut [f32],
    ) -> Result<(), Refusal> {
        checked(read!(
            raw::menu_read_all,
            self,
            sheet,
            book,
            keys,
            marks.as_mut_ptr(),
            marks.len(),
            numbers.as_mut_ptr(),
            numbers.len()
        ))
    }

    /// A pane's transform, visibility and alpha. Refusals 1 to 5, 7.
    ///
    /// ```
    /// use dovebolt::{Player, example};
    ///
    /// let (sheet, book) = (example::sheet(), example::book());
    /// let (mut player, keys) = Player::load(&sheet)?;
    /// player.pose(&sheet, Some(0), 4.0)?;
    /// let logo = player.resolve_pane(&sheet, &book, &keys, 1)?;
    /// assert!(logo.visible);
    /// assert_eq!(logo.transform.translation.x, 8.0); // the override
    /// assert_eq!(logo.transform.translation.y, 2.0); // the book's
    /// # Ok::<(), dovebolt::Refusal>(())
    /// ```
    pub fn resolve_pane(
        &self,
        sheet: &[u8],
        book: &[u8],
        keys: &Keys,
        pane: u16,
    ) -> Result<ResolvedPane, Refusal> {
        let answer = read!(raw::menu_resolve_pane, self, sheet, book, keys, pane);
        checked(answer.refusal)?;
        Ok(ResolvedPane {
            visible: answer.visible,
            alpha: answer.alpha,
            transform: Transform {
                translation: answer.translation,
                rotation: answer.rotation,
                scale: answer.scale,
                size: answer.size,
            },
        })
    }

    /// The texture transform of a material's layer. Refusals 1 to 5, 7.
    ///
    /// ```
    /// use dovebolt::{Player, example};
    ///
    /// let (sheet, book) = (example::sheet(), example::book());
    /// let (mut player, keys) = Player::load(&sheet)?;
    /// player.pose(&sheet, Some(0), 4.0)?;
    /// let layer = player.resolve_srt(&sheet, &book, &keys, 0, 1)?;
    /// assert_eq!(layer.rotate, 8.0);
    /// # Ok::<(), dovebolt::Refusal>(())
    /// ```
    pub fn resolve_srt(
        &self,
        sheet: &[u8],
        book: &[u8],
        keys: &Keys,
        material: u16,
        layer: u16,
    ) -> Result<Srt, Refusal> {
        let answer = read!(
            raw::menu_resolve_srt,
            self,
            sheet,
            book,
            keys,
            material,
            layer
        );
        checked(answer.refusal)?;
        Ok(Srt {
            translate: answer.translate,
            rotate: answer.rotate,
            scale: answer.scale,
        })
    }

    /// The name in a material's texture slot: the sheet's where it is overridden, else the book's. Refusals 1 to 5, 7.
    ///
    /// ```
    /// use dovebolt::{Player, example};
    ///
    /// let (sheet, book) = (example::sheet(), example::book());
    /// let (mut player, keys) = Player::load(&sheet)?;
    /// player.pose(&sheet, Some(0), 4.0)?;
    /// assert_eq!(player.texture_name(&sheet, &book, &keys, 0, 0)?.text(), "night"); // the override
    /// assert_eq!(player.texture_name(&sheet, &book, &keys, 0, 1)?.text(), "mask"); // the book's
    /// # Ok::<(), dovebolt::Refusal>(())
    /// ```
    pub fn texture_name(
        &self,
        sheet: &[u8],
        book: &[u8],
        keys: &Keys,
        material: u16,
        slot: u16,
    ) -> Result<Name, Refusal> {
        let mut name = Name([0; 24]);
        self.texture_name_into(sheet, book, keys, material, slot, &mut name.0)?;
        Ok(name)
    }

    /// The same into a lent output, which must be 24 long. Refusals 1 to 5, 7, 13.
    ///
    /// ```
    /// use dovebolt::{Player, Refusal, example};
    ///
    /// let (sheet, book) = (example::sheet(), example::book());
    /// let (mut player, keys) = Player::load(&sheet)?;
    /// player.pose(&sheet, Some(0), 4.0)?;
    /// let mut out = [0; 24];
    /// player.texture_name_into(&sheet, &book, &keys, 0, 0, &mut out)?;
    /// assert_eq!(&out[..6], b"night\0");
    /// let declined = player.texture_name_into(&sheet, &book, &keys, 0, 0, &mut out[1..]);
    /// assert_eq!(declined, Err(Refusal::OutputLength));
    /// # Ok::<(), dovebolt::Refusal>(())
    /// ```
    pub fn texture_name_into(
        &self,
        sheet: &[u8],
        book: &[u8],
        keys: &Keys,
        material: u16,
        slot: u16,
        out: &mut [u8],
    ) -> Result<(), Refusal> {
        checked(read!(
            raw::menu_texture_name,
            self,
            sheet,
            book,
            keys,
            material,
            slot,
            out.as_mut_ptr(),
            out.len()
        ))
    }

    /// Each pane under its parents. Refusals 1 to 5.
    ///
    /// ```
    /// use dovebolt::{Player, example};
    ///
    /// let (sheet, book) = (example::sheet(), example::book());
    /// let (mut player, keys) = Player::load(&sheet)?;
    /// player.pose(&sheet, Some(0), 4.0)?;
    /// let rows = player.cascade(&sheet, &book, &keys)?;
    /// assert_eq!(rows[0].alpha, 1.0);
    /// assert_eq!(rows[1].alpha, 0.2);
    /// # Ok::<(), dovebolt::Refusal>(())
    /// ```
    pub fn cascade(
        &self,
        sheet: &[u8],
        book: &[u8],
        keys: &Keys,
    ) -> Result<Vec<Cascaded>, Refusal> {
        let count = pane_count(book);
        let mut visible = vec![0; count];
        let mut alpha = vec![0.0; count];
        let mut influence = vec![0.0; count];
        self.cascade_into(sheet, book, keys, &mut visible, &mut alpha, &mut influence)?;
        Ok((0..count)
            .map(|row| Cascaded {
                visible: visible[row] != 0,
                alpha: alpha[row],
                influence: influence[row],
            })
            .collect())
    }

    /// The same into lent outputs, each as long as [`pane_count`] says. Refusals 1 to 5, 13.
    ///
    /// ```
    /// use dovebolt::{Player, example};
    ///
    /// let (sheet, book) = (example::sheet(), example::book());
    /// let (mut player, keys) = Player::load(&sheet)?;
    /// player.pose(&sheet, Some(0), 4.0)?;
    /// let (mut visible, mut alpha, mut influence) = ([0; 2], [0.0; 2], [0.0; 2]);
    /// player.cascade_into(&sheet, &book, &keys, &mut visible, &mut alpha, &mut influence)?;
    /// assert_eq!((visible, alpha), ([1, 1], [1.0, 0.2]));
    /// # Ok::<(), dovebolt::Refusal>(())
    /// ```
    pub fn cascade_into(
        &self,
        sheet: &[u8],
        book: &[u8],
        keys: &Keys,
        visible: &mut [u8],
        alpha: &mut [f32],
        influence: &mut [f32],
    ) -> Result<(), Refusal> {
        checked(read!(
            raw::menu_cascade,
            self,
            sheet,
            book,
            keys,
            visible.as_mut_ptr(),
            visible.len(),
            alpha.as_mut_ptr(),
            alpha.len(),
            influence.as_mut_ptr(),
            influence.len()
        ))
    }
}
