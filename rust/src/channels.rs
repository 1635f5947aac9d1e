//! Channels by name, in the scope paper's order. A name is that of its variant in the published Rust's targets.rs, or the
//! paper's own word (`visible`, `alpha`, `texture_0`, `alpha_reference`, `black_red`); a layer's number stands before it.

use std::fmt;

use crate::formats::pane_count;

/// An enum with a name and a comment for each channel, numbered from 0.
macro_rules! channels {
    ($(#[$about:meta])* $enum:ident: $count:literal; $($variant:ident $name:literal, $comment:literal;)*) => {
        $(#[$about])*
        #[repr(u16)]
        #[derive(Clone, Copy, Debug, PartialEq, Eq, Hash, PartialOrd, Ord)]
        pub enum $enum {
            $(#[doc = $comment] $variant,)*
        }

        impl $enum {
            /// Every one, by rising number.
            pub const ALL: [$enum; $count] = [$($enum::$variant),*];

            /// The channel of this number, which calls in C take.
            pub fn from_number(number: u16) -> Option<$enum> {
                $enum::ALL.get(usize::from(number)).copied()
            }

            /// Its number.
            pub fn number(self) -> u16 {
                self as u16
            }

            /// Its name, as the command line prints and reads it.
            pub fn name(self) -> &'static str {
                match self {
                    $($enum::$variant => $name,)*
                }
            }
        }

        impl fmt::Display for $enum {
            fn fmt(&self, f: &mut fmt::Formatter<'_>) -> fmt::Result {
                f.write_str(self.name())
            }
        }
    };
}

channels! {
    /// A channel of a pane, named as its variant in the published Rust's targets.rs; `Visible` and `Alpha` are the scope
    /// paper's words. Each says the code and the raw number by which a sheet's target addresses it. A raw number that the
    /// family doesn't list stands for 0.
    ///
    /// ```
    /// use dovebolt::PaneChannel;
    ///
    /// assert_eq!(PaneChannel::LeftTopRed.name(), "left_top_red");
    /// assert_eq!(PaneChannel::Alpha.number(), 11);
    /// assert_eq!(PaneChannel::from_number(27), Some(PaneChannel::RightBottomAlpha));
    /// assert_eq!(PaneChannel::from_number(28), None);
    /// ```
    PaneChannel: 28;
    TranslateX "translate_x", "FLPA 0";
    TranslateY "translate_y", "FLPA 1";
    TranslateZ "translate_z", "FLPA 2";
    RotateX "rotate_x", "FLPA 3: degrees";
    RotateY "rotate_y", "FLPA 4: degrees";
    RotateZ "rotate_z", "FLPA 5: degrees";
    ScaleX "scale_x", "FLPA 6";
    ScaleY "scale_y", "FLPA 7";
    SizeX "size_x", "FLPA 8";
    SizeY "size_y", "FLPA 9";
    Visible "visible", "FLVI: shown or hidden";
    Alpha "alpha", "FLVC 16 (`PaneAlpha`): value / 255";
    LeftTopRed "left_top_red", "FLVC 0: value / 255";
    LeftTopGreen "left_top_green", "FLVC 1: value / 255";
    LeftTopBlue "left_top_blue", "FLVC 2: value / 255";
    LeftTopAlpha "left_top_alpha", "FLVC 3: value / 255";
    RightTopRed "right_top_red", "FLVC 4: value / 255";
    RightTopGreen "right_top_green", "FLVC 5: value / 255";
    RightTopBlue "right_top_blue", "FLVC 6: value / 255";
    RightTopAlpha "right_top_alpha", "FLVC 7: value / 255";
    LeftBottomRed "left_bottom_red", "FLVC 8: value / 255";
    LeftBottomGreen "left_bottom_green", "FLVC 9: value / 255";
    LeftBottomBlue "left_bottom_blue", "FLVC 10: value / 255";
    LeftBottomAlpha "left_bottom_alpha", "FLVC 11: value / 255";
    RightBottomRed "right_bottom_red", "FLVC 12: value / 255";
    RightBottomGreen "right_bottom_green", "FLVC 13: value / 255";
    RightBottomBlue "right_bottom_blue", "FLVC 14: value / 255";
    RightBottomAlpha "right_bottom_alpha", "FLVC 15: value / 255";
}

channels! {
    /// A channel of a material, named likewise; `Texture0`, `AlphaReference`, `BlackRed` and `WhiteRed` are the scope
    /// paper's words. Each says the code, the raw number and the layer by which a sheet's target addresses it; where none is
    /// said, any. A raw number that the family doesn't list stands for 0.
    ///
    /// ```
    /// use dovebolt::MaterialChannel;
    ///
    /// assert_eq!(MaterialChannel::Texture0.name(), "texture_0");
    /// assert_eq!(MaterialChannel::BlackRed.number(), 22);
    /// assert_eq!(MaterialChannel::from_number(29), Some(MaterialChannel::WhiteAlpha));
    /// assert_eq!(MaterialChannel::from_number(30), None);
    /// ```
    MaterialChannel: 30;
    Layer0TranslateU "layer_0_translate_u", "FLTS 0, layer 0";
    Layer0TranslateV "layer_0_translate_v", "FLTS 1, layer 0";
    Layer0Rotate "layer_0_rotate", "FLTS 2, layer 0: degrees";
    Layer0ScaleU "layer_0_scale_u", "FLTS 3, layer 0";
    Layer0ScaleV "layer_0_scale_v", "FLTS 4, layer 0";
    Layer1TranslateU "layer_1_translate_u", "FLTS 0, layer 1";
    Layer1TranslateV "layer_1_translate_v", "FLTS 1, layer 1";
    Layer1Rotate "layer_1_rotate", "FLTS 2, layer 1: degrees";
    Layer1ScaleU "layer_1_scale_u", "FLTS 3, layer 1";
    Layer1ScaleV "layer_1_scale_v", "FLTS 4, layer 1";
    Layer2TranslateU "layer_2_translate_u", "FLTS 0, layer 2";
    Layer2TranslateV "layer_2_translate_v", "FLTS 1, layer 2";
    Layer2Rotate "layer_2_rotate", "FLTS 2, layer 2: degrees";
    Layer2ScaleU "layer_2_scale_u", "FLTS 3, layer 2";
    Layer2ScaleV "layer_2_scale_v", "FLTS 4, layer 2";
    Texture0 "texture_0", "FLTP, layer 0: a row of the sheet's texture names";
    Texture1 "texture_1", "FLTP, layer 1: a row of the sheet's texture names";
    Texture2 "texture_2", "FLTP, layer 2: a row of the sheet's texture names";
    IndirectRotate "indirect_rotate", "FLIM 0";
    IndirectScaleU "indirect_scale_u", "FLIM 1";
    IndirectScaleV "indirect_scale_v", "FLIM 2";
    AlphaReference "alpha_reference", "FLAC (`CompareReference`)";
    BlackRed "black_red", "FLMC 0 (`BufferRed`): a level";
    BlackGreen "black_green", "FLMC 1 (`BufferGreen`): a level";
    BlackBlue "black_blue", "FLMC 2 (`BufferBlue`): a level";
    BlackAlpha "black_alpha", "FLMC 3 (`BufferAlpha`): a level";
    WhiteRed "white_red", "FLMC 4 (`Constant0Red`) and 8, 12, 16, 20, 24 (`Color0Red` to `Color4Red`): a level";
    WhiteGreen "white_green", "FLMC 5 (`Constant0Green`) and 9, 13, 17, 21, 25 (`Color0Green` to `Color4Green`): a level";
    WhiteBlue "white_blue", "FLMC 6 (`Constant0Blue`) and 10, 14, 18, 22, 26 (`Color0Blue` to `Color4Blue`): a level";
    WhiteAlpha "white_alpha", "FLMC 7 (`Constant0Alpha`) and 11, 15, 19, 23, 27 (`Color0Alpha` to `Color4Alpha`): a level";
}

impl PaneChannel {
    /// Where a whole reading has this channel of a pane.
    ///
    /// ```
    /// use dovebolt::{PaneChannel, Player, example};
    ///
    /// let (sheet, book) = (example::sheet(), example::book());
    /// let (mut player, keys) = Player::load(&sheet)?;
    /// player.pose(&sheet, Some(0), 4.0)?;
    /// let all = player.read_all(&sheet, &book, &keys)?;
    /// assert_eq!(all.get(PaneChannel::TranslateX.place(1)), Some(8.0));
    /// # Ok::<(), dovebolt::Refusal>(())
    /// ```
    pub fn place(self, pane: u16) -> usize {
        usize::from(pane) * Self::ALL.len() + usize::from(self.number())
    }
}

impl MaterialChannel {
    /// Where a whole reading of this book has this channel of a material. The book is not checked here.
    ///
    /// ```
    /// use dovebolt::{MaterialChannel, Player, example};
    ///
    /// let (sheet, book) = (example::sheet(), example::book());
    /// let (mut player, keys) = Player::load(&sheet)?;
    /// player.pose(&sheet, Some(0), 4.0)?;
    /// let all = player.read_all(&sheet, &book, &keys)?;
    /// assert_eq!(all.get(MaterialChannel::BlackRed.place(&book, 0)), Some(200.0));
    /// # Ok::<(), dovebolt::Refusal>(())
    /// ```
    pub fn place(self, book: &[u8], material: u16) -> usize {
        let panes = pane_count(book) * PaneChannel::ALL.len();
        panes + usize::from(material) * Self::ALL.len() + usize::from(self.number())
    }
}
