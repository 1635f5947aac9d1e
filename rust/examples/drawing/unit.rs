//! A channel's unit: what a stored value reads as, and the words for a reading.

use dovebolt::{Channel, MaterialChannel, PaneChannel, SheetView};

use super::words;

#[derive(Clone, Copy, PartialEq)]
pub enum Unit {
    /// Alpha and corner colours: 0 to 1, the stored value / 255.
    Share,
    /// Shown or hidden.
    Visible,
    /// A row of the sheet's texture names.
    Texture,
    /// A material's colour, 0 to 255.
    Level,
    Degrees,
    /// A scale.
    Times,
    Plain,
}

impl Unit {
    pub fn of(channel: Channel) -> Unit {
        match channel {
            Channel::Pane(channel) => Unit::of_pane(channel),
            Channel::Material(channel) => Unit::of_material(channel),
        }
    }

    fn of_pane(channel: PaneChannel) -> Unit {
        use PaneChannel::*;
        match channel {
            TranslateX | TranslateY | TranslateZ | SizeX | SizeY => Unit::Plain,
            RotateX | RotateY | RotateZ => Unit::Degrees,
            ScaleX | ScaleY => Unit::Times,
            Visible => Unit::Visible,
            _ => Unit::Share,
        }
    }

    fn of_material(channel: MaterialChannel) -> Unit {
        use MaterialChannel::*;
        match channel {
            Texture0 | Texture1 | Texture2 => Unit::Texture,
            Layer0Rotate | Layer1Rotate | Layer2Rotate | IndirectRotate => Unit::Degrees,
            Layer0ScaleU | Layer0ScaleV | Layer1ScaleU | Layer1ScaleV | Layer2ScaleU
            | Layer2ScaleV | IndirectScaleU | IndirectScaleV => Unit::Times,
            Layer0TranslateU | Layer0TranslateV | Layer1TranslateU | Layer1TranslateV
            | Layer2TranslateU | Layer2TranslateV | AlphaReference => Unit::Plain,
            _ => Unit::Level,
        }
    }

    /// Where a key of this value stands: what the value reads as by itself.
    pub fn reading(self, value: f32) -> f64 {
        match self {
            Unit::Share => f64::from(value) / 255.0,
            Unit::Visible => f64::from(u8::from(value as u16 != 0)),
            Unit::Texture => f64::from(value as u16),
            Unit::Level => f64::from(value.round() as u8),
            Unit::Degrees | Unit::Times | Unit::Plain => f64::from(value),
        }
    }

    /// Whether the readings are whole numbers, or words, and so are drawn as steps.
    pub fn whole(self) -> bool {
        matches!(self, Unit::Visible | Unit::Texture | Unit::Level)
    }

    /// A number as it is written in this unit.
    pub fn with_sign(self, number: &str) -> String {
        match self {
            Unit::Degrees => format!("{number}°"),
            Unit::Times => format!("×{number}"),
            _ => number.to_string(),
        }
    }

    /// A number of a whole reading in words; the second is short.
    pub fn words(self, number: f32, sheet: SheetView) -> (String, String) {
        let one = match self {
            Unit::Visible if number != 0.0 => "shown".to_string(),
            Unit::Visible => "hidden".to_string(),
            Unit::Texture => {
                let name = sheet.textures().nth(number as usize);
                name.map_or(no_such(number as u16), |name| name.to_string())
            }
            _ => {
                let exact = self.with_sign(&words::exact(number));
                return (exact, self.with_sign(&words::short(number)));
            }
        };
        (one.clone(), one)
    }
}

/// A texture row that the sheet doesn't have.
pub fn no_such(row: u16) -> String {
    format!("row {row}: no such texture")
}
