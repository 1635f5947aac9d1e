//! Builds a sheet: animations, their contents, the tracks of these and the texture names.

use std::marker::PhantomData;

use super::error::{BuildError, Problem, Row};
use super::{layout, rules};
use crate::address::{Address, ContentKind};
use crate::channels::{MaterialChannel, PaneChannel};
use crate::keys::Key;
use crate::view::{Curve, SheetView};

/// Builds a sheet. Rows come in the order of the calls; sizes, row numbers, first keys and padding are worked out.
///
/// ```
/// use dovebolt::{MaterialChannel, PaneChannel, Player, SheetBuilder};
///
/// let mut sheet = SheetBuilder::new();
/// let appear = sheet.animation(16).next("Idle");
/// appear.pane("Logo").hermite(PaneChannel::TranslateY, &[(0.0, 360.0, 0.0), (12.0, 96.0, 0.0)]);
/// appear
///     .material("M_Sky")
///     .step(MaterialChannel::Texture0, &[(0.0, 0.0), (12.0, 1.0)])
///     .constant(MaterialChannel::BlackRed, &[200.0]);
/// sheet.animation(60).looping().pane("Logo").constant(PaneChannel::Visible, &[1.0]);
/// sheet.texture("sky_dawn").texture("sky_noon");
/// let bytes = sheet.build()?;
///
/// let (_, keys) = Player::load(&bytes)?;
/// assert_eq!(keys.values, [360.0, 96.0, 0.0, 1.0, 200.0, 1.0]);
/// # Ok::<(), Box<dyn std::error::Error>>(())
/// ```
#[derive(Clone, Debug, Default, PartialEq)]
pub struct SheetBuilder {
    pub(super) animations: Vec<AnimationBuilder>,
    pub(super) textures: Vec<String>,
}

/// An animation of a sheet that is built: [`SheetBuilder::animation`].
#[derive(Clone, Debug, PartialEq)]
pub struct AnimationBuilder {
    pub(super) frames: u16,
    pub(super) looping: bool,
    pub(super) next: Option<String>,
    pub(super) contents: Vec<ContentRow>,
}

#[derive(Clone, Debug, PartialEq)]
pub(super) struct ContentRow {
    pub kind: ContentKind,
    pub name: String,
    pub tracks: Vec<TrackRow>,
}

#[derive(Clone, Debug, PartialEq)]
pub(super) struct TrackRow {
    pub address: Address,
    pub curve: Curve,
    pub keys: Vec<Key>,
}

impl SheetBuilder {
    /// A sheet without rows.
    pub fn new() -> SheetBuilder {
        SheetBuilder::default()
    }

    /// Adds an animation of this many frames, which ends and names no other.
    ///
    /// ```
    /// use dovebolt::{SheetBuilder, SheetView};
    ///
    /// let mut sheet = SheetBuilder::new();
    /// sheet.animation(16).next("Idle");
    /// sheet.animation(60).looping();
    /// let bytes = sheet.build()?;
    /// let rows: Vec<_> = SheetView::of(&bytes)?.animations().collect();
    /// assert_eq!((rows[0].frames, rows[0].looping), (16, false));
    /// assert_eq!(rows[0].next.unwrap().text(), "Idle");
    /// assert_eq!((rows[1].frames, rows[1].looping, rows[1].next), (60, true, None));
    /// # Ok::<(), Box<dyn std::error::Error>>(())
    /// ```
    pub fn animation(&mut self, frames: u16) -> &mut AnimationBuilder {
        self.animations.push(AnimationBuilder {
            frames,
            looping: false,
            next: None,
            contents: vec![],
        });
        self.animations.last_mut().expect("one was pushed")
    }

    /// Adds a texture name, whose row number a texture track's values are.
    ///
    /// ```
    /// use dovebolt::{SheetBuilder, SheetView};
    ///
    /// let mut sheet = SheetBuilder::new();
    /// sheet.animation(1);
    /// sheet.texture("day").texture("night");
    /// let bytes = sheet.build()?;
    /// assert_eq!(SheetView::of(&bytes)?.textures().nth(1).unwrap().text(), "night");
    /// # Ok::<(), Box<dyn std::error::Error>>(())
    /// ```
    pub fn texture(&mut self, name: &str) -> &mut SheetBuilder {
        self.textures.push(name.into());
        self
    }

    /// The sheet's bytes, which the proved code has accepted, or the first row that breaks a rule: animation by animation,
    /// then the textures.
    ///
    /// ```
    /// use dovebolt::SheetBuilder;
    ///
    /// let mut sheet = SheetBuilder::new();
    /// assert_eq!(sheet.build().unwrap_err().to_string(), "the sheet: there is no animation");
    /// sheet.animation(8).pane("the pane of a name that is too long");
    /// assert_eq!(
    ///     sheet.build().unwrap_err().to_string(),
    ///     "animation 0, content 0 (pane \"the pane of a name that is too long\"): \
    ///      the name has 35 bytes, 24 at most fit"
    /// );
    /// ```
    pub fn build(&self) -> Result<Vec<u8>, BuildError> {
        rules::sheet(self)?;
        let bytes = layout::sheet(self);
        match SheetView::of(&bytes) {
            Ok(_) => Ok(bytes),
            Err(refusal) => Err(BuildError::new(
                Row::Sheet,
                Row::Sheet,
                Problem::Declined(refusal),
            )),
        }
    }
}

impl AnimationBuilder {
    /// It begins again at its end.
    pub fn looping(&mut self) -> &mut AnimationBuilder {
        self.looping = true;
        self
    }

    /// Names the animation that follows.
    pub fn next(&mut self, name: &str) -> &mut AnimationBuilder {
        self.next = Some(name.into());
        self
    }

    /// Adds a content that moves the pane of this label.
    ///
    /// ```
    /// use dovebolt::{PaneChannel, SheetBuilder, SheetView};
    ///
    /// let mut sheet = SheetBuilder::new();
    /// let appear = sheet.animation(16);
    /// appear.pane("Logo").constant(PaneChannel::Alpha, &[204.0]);
    /// appear.pane_ext("Shine").step(PaneChannel::Visible, &[(0.0, 0.0), (10.0, 1.0)]);
    /// let bytes = sheet.build()?;
    /// let shine = SheetView::of(&bytes)?.track(1).unwrap();
    /// assert_eq!((shine.content, shine.keys()), (1, 1..3));
    /// # Ok::<(), Box<dyn std::error::Error>>(())
    /// ```
    pub fn pane(&mut self, label: &str) -> ContentBuilder<'_, PaneChannel> {
        self.add(ContentKind::Pane, label)
    }

    /// The same as a content of type PaneExt, which moves a pane as well.
    pub fn pane_ext(&mut self, label: &str) -> ContentBuilder<'_, PaneChannel> {
        self.add(ContentKind::PaneExt, label)
    }

    /// Adds a content that moves the material of this name.
    pub fn material(&mut self, name: &str) -> ContentBuilder<'_, MaterialChannel> {
        self.add(ContentKind::Material, name)
    }

    /// Adds a content of any type, whose tracks go by their address. It may address nothing.
    ///
    /// ```
    /// use dovebolt::{Address, ContentKind, SheetBuilder, SheetView};
    ///
    /// let mut sheet = SheetBuilder::new();
    /// let decide = sheet.animation(10);
    /// decide.content(ContentKind::User, "Menu").constant(Address::new(b"FLEU", 0, 0), &[1.0]);
    /// let bytes = sheet.build()?;
    /// let track = SheetView::of(&bytes)?.track(0).unwrap();
    /// assert_eq!((track.address.to_string(), track.channel()), ("FLEU 0 layer 0".into(), None));
    /// # Ok::<(), Box<dyn std::error::Error>>(())
    /// ```
    pub fn content(&mut self, kind: ContentKind, name: &str) -> ContentBuilder<'_, Address> {
        self.add(kind, name)
    }

    fn add<C>(&mut self, kind: ContentKind, name: &str) -> ContentBuilder<'_, C> {
        self.contents.push(ContentRow {
            kind,
            name: name.into(),
            tracks: vec![],
        });
        let row = self.contents.last_mut().expect("one was pushed");
        ContentBuilder {
            tracks: &mut row.tracks,
            channel: PhantomData,
        }
    }
}

/// A content of a sheet that is built, to which tracks are added. `C` is what its tracks go by: [`PaneChannel`],
/// [`MaterialChannel`], or an [`Address`].
#[derive(Debug)]
pub struct ContentBuilder<'a, C> {
    tracks: &'a mut Vec<TrackRow>,
    channel: PhantomData<C>,
}

impl<C: Into<Address>> ContentBuilder<'_, C> {
    /// Adds a track of a Constant curve: the value of the key whose number is the frame, the last at most.
    ///
    /// ```
    /// use dovebolt::{PaneChannel, Player, Reading, SheetBuilder, example};
    ///
    /// let mut sheet = SheetBuilder::new();
    /// sheet.animation(8).pane("Logo").constant(PaneChannel::SizeX, &[64.0]);
    /// let (sheet, book) = (sheet.build()?, example::book());
    /// let (mut player, keys) = Player::load(&sheet)?;
    /// player.pose(&sheet, Some(0), 5.0)?;
    /// let size_x = player.read_pane(&sheet, &book, &keys, 1, PaneChannel::SizeX)?;
    /// assert_eq!(size_x, Reading::Number(64.0));
    /// # Ok::<(), Box<dyn std::error::Error>>(())
    /// ```
    pub fn constant(&mut self, channel: C, values: &[f32]) -> &mut Self {
        let keys = values.iter().map(|&value| key(0.0, value, 0.0));
        self.track(channel, Curve::Constant, keys.collect())
    }

    /// Adds a track of a Step curve: frames, which never fall, and values, whole numbers 0 to 65,535.
    ///
    /// ```
    /// use dovebolt::{MaterialChannel, SheetBuilder};
    ///
    /// let mut sheet = SheetBuilder::new();
    /// sheet.animation(8).material("Glow").step(MaterialChannel::Texture0, &[(0.0, 0.0), (4.0, 1.5)]);
    /// assert_eq!(
    ///     sheet.build().unwrap_err().to_string(),
    ///     "animation 0, content 0 (material \"Glow\"), track 0 (texture_0), key 1: \
    ///      the Step value 1.5 is not a whole number 0 to 65,535"
    /// );
    /// ```
    pub fn step(&mut self, channel: C, keys: &[(f32, f32)]) -> &mut Self {
        let keys = keys.iter().map(|&(frame, value)| key(frame, value, 0.0));
        self.track(channel, Curve::Step, keys.collect())
    }

    /// Adds a track of a Hermite curve: frames, which never fall, values and slopes.
    pub fn hermite(&mut self, channel: C, keys: &[(f32, f32, f32)]) -> &mut Self {
        let keys = keys
            .iter()
            .map(|&(frame, value, slope)| key(frame, value, slope));
        self.track(channel, Curve::Hermite, keys.collect())
    }

    /// The same content, its further tracks by their address: a raw number or a layer that no channel's own address has.
    ///
    /// ```
    /// use dovebolt::{Address, MaterialChannel, SheetBuilder, SheetView};
    ///
    /// let mut sheet = SheetBuilder::new();
    /// let appear = sheet.animation(16);
    /// appear
    ///     .material("M_Logo")
    ///     .constant(MaterialChannel::BlackAlpha, &[0.0])
    ///     .by_address()
    ///     .constant(Address::new(b"FLMC", 18, 0), &[192.0]); // Color2Blue
    /// let bytes = sheet.build()?;
    /// let track = SheetView::of(&bytes)?.track(1).unwrap();
    /// assert_eq!((track.content, track.channel().unwrap().name()), (0, "white_blue"));
    /// # Ok::<(), Box<dyn std::error::Error>>(())
    /// ```
    pub fn by_address(&mut self) -> ContentBuilder<'_, Address> {
        ContentBuilder {
            tracks: self.tracks,
            channel: PhantomData,
        }
    }

    fn track(&mut self, channel: C, curve: Curve, keys: Vec<Key>) -> &mut Self {
        self.tracks.push(TrackRow {
            address: channel.into(),
            curve,
            keys,
        });
        self
    }
}

fn key(frame: f32, value: f32, slope: f32) -> Key {
    Key {
        frame,
        value,
        slope,
    }
}
