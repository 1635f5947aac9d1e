//! How a track addresses a channel: by the type of its content and by a code, a raw number and a layer.

use std::fmt;

use crate::channels::{MaterialChannel, PaneChannel};

/// A channel of a pane or of a material.
///
/// ```
/// use dovebolt::{Channel, PaneChannel};
///
/// assert_eq!(Channel::Pane(PaneChannel::Alpha).name(), "alpha");
/// ```
#[derive(Clone, Copy, Debug, PartialEq, Eq, Hash)]
pub enum Channel {
    Pane(PaneChannel),
    Material(MaterialChannel),
}

impl Channel {
    /// Its name, as the command line prints and reads it.
    pub fn name(self) -> &'static str {
        match self {
            Channel::Pane(channel) => channel.name(),
            Channel::Material(channel) => channel.name(),
        }
    }
}

impl fmt::Display for Channel {
    fn fmt(&self, f: &mut fmt::Formatter<'_>) -> fmt::Result {
        f.write_str(self.name())
    }
}

/// The type of a content: what its name is the name of.
///
/// ```
/// assert_eq!(dovebolt::ContentKind::PaneExt.to_string(), "pane ext");
/// ```
#[repr(u8)]
#[derive(Clone, Copy, Debug, PartialEq, Eq, Hash)]
pub enum ContentKind {
    /// The name is the label of a pane.
    Pane = 0,
    /// The name is that of a material.
    Material = 1,
    /// User data: addresses nothing.
    User = 2,
    /// As a pane.
    PaneExt = 3,
    /// A state machine: addresses nothing.
    StateMachine = 4,
}

impl ContentKind {
    const ALL: [ContentKind; 5] = [
        ContentKind::Pane,
        ContentKind::Material,
        ContentKind::User,
        ContentKind::PaneExt,
        ContentKind::StateMachine,
    ];

    /// The type of this number in a sheet.
    pub fn from_number(number: u8) -> Option<ContentKind> {
        ContentKind::ALL.get(usize::from(number)).copied()
    }

    /// Its number in a sheet.
    pub fn number(self) -> u8 {
        self as u8
    }
}

impl fmt::Display for ContentKind {
    fn fmt(&self, f: &mut fmt::Formatter<'_>) -> fmt::Result {
        f.write_str(match self {
            ContentKind::Pane => "pane",
            ContentKind::Material => "material",
            ContentKind::User => "user data",
            ContentKind::PaneExt => "pane ext",
            ContentKind::StateMachine => "state machine",
        })
    }
}

/// The code, raw number and layer of a track. Each channel has an address; some addresses stand for the same channel, and
/// some for none.
///
/// ```
/// use dovebolt::{Address, Channel, ContentKind, MaterialChannel};
///
/// let address = Address::from(MaterialChannel::WhiteBlue);
/// assert_eq!(address, Address::new(b"FLMC", 6, 0));
///
/// let color_2_blue = Address::new(b"FLMC", 18, 0);
/// let channel = color_2_blue.channel(ContentKind::Material);
/// assert_eq!(channel, Some(Channel::Material(MaterialChannel::WhiteBlue)));
/// assert_eq!(color_2_blue.channel(ContentKind::Pane), None);
/// ```
#[derive(Clone, Copy, Debug, PartialEq, Eq, Hash)]
pub struct Address {
    pub code: [u8; 4],
    pub raw: u8,
    pub layer: u8,
}

impl Address {
    pub const fn new(code: &[u8; 4], raw: u8, layer: u8) -> Address {
        Address {
            code: *code,
            raw,
            layer,
        }
    }

    /// The channel that a track of this address has in a content of this type. Whether a book has the pane or the material
    /// is another question: [`BookView::reached`](crate::BookView::reached).
    pub fn channel(self, kind: ContentKind) -> Option<Channel> {
        match kind {
            ContentKind::Pane | ContentKind::PaneExt => self.pane_channel().map(Channel::Pane),
            ContentKind::Material => self.material_channel().map(Channel::Material),
            ContentKind::User | ContentKind::StateMachine => None,
        }
    }

    /// The raw number in a family that lists `count` of them: one that is not listed stands for the first.
    fn listed(self, count: u16) -> u16 {
        let raw = u16::from(self.raw);
        if raw < count { raw } else { 0 }
    }

    fn pane_channel(self) -> Option<PaneChannel> {
        use PaneChannel::*;
        let after = |first: PaneChannel, n: u16| PaneChannel::from_number(first.number() + n);
        match &self.code {
            b"FLPA" => after(TranslateX, self.listed(10)),
            b"FLVI" => Some(Visible),
            b"FLVC" => match self.listed(17) {
                PANE_ALPHA => Some(Alpha),
                corner => after(LeftTopRed, corner),
            },
            _ => None,
        }
    }

    fn material_channel(self) -> Option<MaterialChannel> {
        use MaterialChannel::*;
        let after =
            |first: MaterialChannel, n: u16| MaterialChannel::from_number(first.number() + n);
        let layer = u16::from(self.layer);
        match &self.code {
            b"FLTS" if layer < LAYERS => after(Layer0TranslateU, layer * SRT + self.listed(SRT)),
            b"FLTP" if layer < LAYERS => after(Texture0, layer),
            b"FLIM" => after(IndirectRotate, self.listed(3)),
            b"FLAC" => Some(AlphaReference),
            // Black has the first four raw numbers; all later ones are white, four by four.
            b"FLMC" => match self.listed(28) {
                black if black < COLOURS => after(BlackRed, black),
                white => after(WhiteRed, white % COLOURS),
            },
            _ => None,
        }
    }
}

/// The raw number of `PaneAlpha`, behind the sixteen of the corners.
const PANE_ALPHA: u16 = 16;
/// Layers of a material; a track of a layer from here up is skipped.
const LAYERS: u16 = 3;
/// Channels of a layer.
const SRT: u16 = 5;
/// Red, green, blue and alpha.
const COLOURS: u16 = 4;

/// The address with the channel's own raw number; the layer is 0 in families that ignore it.
impl From<PaneChannel> for Address {
    fn from(channel: PaneChannel) -> Address {
        use PaneChannel::*;
        let from = |first: PaneChannel| (channel.number() - first.number()) as u8;
        match channel {
            Visible => Address::new(b"FLVI", 0, 0),
            Alpha => Address::new(b"FLVC", PANE_ALPHA as u8, 0),
            _ if channel < Visible => Address::new(b"FLPA", from(TranslateX), 0),
            _ => Address::new(b"FLVC", from(LeftTopRed), 0),
        }
    }
}

/// The address with the channel's first raw number: `Constant0` for white.
impl From<MaterialChannel> for Address {
    fn from(channel: MaterialChannel) -> Address {
        use MaterialChannel::*;
        let from = |first: MaterialChannel| (channel.number() - first.number()) as u8;
        let srt = SRT as u8;
        match channel {
            Texture0 | Texture1 | Texture2 => Address::new(b"FLTP", 0, from(Texture0)),
            AlphaReference => Address::new(b"FLAC", 0, 0),
            _ if channel < Texture0 => {
                let n = from(Layer0TranslateU);
                Address::new(b"FLTS", n % srt, n / srt)
            }
            _ if channel < AlphaReference => Address::new(b"FLIM", from(IndirectRotate), 0),
            _ => Address::new(b"FLMC", from(BlackRed), 0),
        }
    }
}

/// The code, the raw number and the layer, as `FLTS 3 layer 1`. Bytes of a code that are no letters are escaped.
impl fmt::Display for Address {
    fn fmt(&self, f: &mut fmt::Formatter<'_>) -> fmt::Result {
        let Address { code, raw, layer } = self;
        write!(f, "{} {raw} layer {layer}", code.escape_ascii())
    }
}
