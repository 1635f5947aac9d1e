//! A menu, and everything that can be read of it at its frames.

use cases::bits::bits_of;
use cases::format::book::Book;
use cases::format::load::Arrays;
use cases::format::sheet::Sheet;
use cases::format::{NAME, Name};
use cases::random::Random;
use cases::reach::some;
use cases::readings::addressed;
use cases::readings::whole::Reading;
use dovebolt::{Keys, Player, Refusal};

pub struct Menu {
    pub sheet: Sheet,
    pub book: Book,
    pub sheet_bytes: Vec<u8>,
    pub book_bytes: Vec<u8>,
    /// For each animation the frames that are read: every whole one from 0 to the frame
    /// count, and some others behind them.
    pub frames: Vec<Vec<f32>>,
    /// For each animation and channel the track that decides it.
    pub deciding: Vec<Vec<Option<usize>>>,
}

/// What is read at a frame. Floats are bits, all NaNs one.
#[derive(Debug, PartialEq)]
pub struct Shown {
    pub channels: Reading,
    /// Of each pane by itself: visible, alpha and ten numbers.
    pub panes: Vec<[u32; 12]>,
    /// Of each pane under its parents: visible, alpha and what it hands on.
    pub cascade: Vec<[u32; 3]>,
    /// Three layers and three names a material.
    pub srts: Vec<[u32; 5]>,
    pub names: Vec<Name>,
}

/// By animation and frame.
pub type Everything = Vec<Vec<Shown>>;

pub fn arrays_of(keys: &Keys) -> Arrays {
    [&keys.frames, &keys.values, &keys.slopes].map(Clone::clone)
}

impl Menu {
    pub fn some(random: &mut Random) -> Self {
        let (sheet, book) = some::menu(random);
        let frames = sheet.animations.iter().map(|animation| {
            let whole = (0..=animation.frame_count).map(f32::from);
            whole.chain(some::fractions(random, &sheet)).collect()
        });
        let frames = frames.collect();
        let numbers = 0..sheet.animations.len();
        Self {
            frames,
            deciding: numbers
                .map(|animation| addressed::deciding(&sheet, &book, animation))
                .collect(),
            sheet_bytes: sheet.write(),
            book_bytes: book.write(),
            sheet,
            book,
        }
    }

    pub fn animations(&self) -> std::ops::Range<usize> {
        0..self.sheet.animations.len()
    }

    pub fn bytes(&self) -> (&[u8], &[u8]) {
        (&self.sheet_bytes, &self.book_bytes)
    }

    /// The sheet with other keys.
    pub fn with(&self, [frames, values, slopes]: &Arrays) -> Sheet {
        Sheet {
            frames: frames.clone(),
            values: values.clone(),
            slopes: slopes.clone(),
            ..self.sheet.clone()
        }
    }

    /// Reads everything with these keys, which are accepted.
    pub fn read(&self, keys: &Keys) -> Everything {
        let (mut player, _) = Player::load(&self.sheet_bytes).expect("a good sheet");
        let frames = self.frames.iter().enumerate();
        frames
            .map(|(animation, frames)| {
                let at = frames.iter().map(|&frame| {
                    let posed = player.pose(&self.sheet_bytes, Some(animation as u16), frame);
                    posed.expect("a good frame");
                    self.shown(&player, keys).expect("all is good")
                });
                at.collect()
            })
            .collect()
    }

    fn shown(&self, player: &Player, keys: &Keys) -> Result<Shown, Refusal> {
        let (s, b) = self.bytes();
        let count = addressed::channels(&self.book);
        let (mut marks, mut numbers) = (vec![7; count], vec![-77.0; count]);
        player.read_all_into(s, b, keys, &mut marks, &mut numbers)?;
        let mut shown = Shown {
            channels: Reading {
                marks,
                numbers: numbers.into_iter().map(bits_of).collect(),
            },
            panes: Vec::with_capacity(self.book.panes.len()),
            cascade: self.cascade(player, keys)?,
            srts: Vec::with_capacity(3 * self.book.materials.len()),
            names: Vec::with_capacity(3 * self.book.materials.len()),
        };
        for pane in 0..self.book.panes.len() {
            shown.panes.push(self.pane(player, keys, pane as u16)?);
        }
        for row in 0..3 * self.book.materials.len() {
            let (material, of) = ((row / 3) as u16, (row % 3) as u16);
            let srt = player.resolve_srt(s, b, keys, material, of)?;
            let (t, scale) = (srt.translate, srt.scale);
            let numbers = [t.x, t.y, srt.rotate, scale.x, scale.y];
            shown.srts.push(numbers.map(bits_of));
            let mut name = [0; NAME];
            player.texture_name_into(s, b, keys, material, of, &mut name)?;
            shown.names.push(name);
        }
        Ok(shown)
    }

    fn cascade(&self, player: &Player, keys: &Keys) -> Result<Vec<[u32; 3]>, Refusal> {
        let rows = self.book.panes.len();
        let mut visible = vec![7; rows];
        let (mut alpha, mut handed) = (vec![-77.0; rows], vec![-77.0; rows]);
        let (s, b) = self.bytes();
        player.cascade_into(s, b, keys, &mut visible, &mut alpha, &mut handed)?;
        let row = |i: usize| [visible[i].into(), bits_of(alpha[i]), bits_of(handed[i])];
        Ok((0..rows).map(row).collect())
    }

    fn pane(&self, player: &Player, keys: &Keys, pane: u16) -> Result<[u32; 12], Refusal> {
        let (s, b) = self.bytes();
        let own = player.resolve_pane(s, b, keys, pane)?;
        let to = own.transform;
        let (t, r) = (to.translation, to.rotation);
        let [tx, ty, tz, rx, ry, rz] = [t.x, t.y, t.z, r.x, r.y, r.z].map(bits_of);
        let [sx, sy, w, h] = [to.scale.x, to.scale.y, to.size.x, to.size.y].map(bits_of);
        let (visible, alpha) = (own.visible.into(), bits_of(own.alpha));
        Ok([visible, alpha, tx, ty, tz, rx, ry, rz, sx, sy, w, h])
    }
}
