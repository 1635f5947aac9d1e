//! The refusals: their names, numbers and words.

use std::fmt;

/// The table: a name, a number, plain words and, for the documentation, the scope papers' own text of each refusal.
macro_rules! refusals {
    ($(#[$about:meta])* $($name:ident = $number:literal, $words:literal, $text:literal;)*) => {
        $(#[$about])*
        #[repr(u8)]
        #[derive(Clone, Copy, Debug, PartialEq, Eq, Hash, PartialOrd, Ord)]
        pub enum Refusal {
            $(#[doc = $text] $name = $number,)*
        }

        impl Refusal {
            /// Every refusal, by rising number.
            pub const ALL: [Refusal; 15] = [$(Refusal::$name),*];

            /// The refusal in plain words, as the command line and the C header have them.
            ///
            /// ```
            /// assert_eq!(dovebolt::Refusal::Book.words(), "the book breaks its layout");
            /// ```
            pub fn words(self) -> &'static str {
                match self {
                    $(Refusal::$name => $words,)*
                }
            }
        }
    };
}

refusals! {
    /// Why a call was declined: the first that applies, in the order in which the call's documentation lists them.
    /// Nothing that was lent has changed. Each variant says exactly when it declines.
    ///
    /// ```
    /// use dovebolt::{Player, Refusal};
    ///
    /// let refusal = Player::load(b"no sheet").unwrap_err();
    /// assert_eq!(refusal, Refusal::Sheet);
    /// assert_eq!(refusal.number(), 1);
    /// assert_eq!(refusal.to_string(), "refusal 1: the sheet breaks its layout");
    /// ```
    Sheet = 1, "the sheet breaks its layout",
        "The sheet breaks its layout (key rules apart).";
    Book = 2, "the book breaks its layout",
        "The book breaks its layout.";
    KeyLengths = 3, "a key array is not as long as the sheet has keys",
        "A key array is not K long, as many as the sheet has keys.";
    KeyRules = 4, "the keys break the key rules",
        "Keys (at loading the sheet's, later the lent ones) break the key rules.";
    State = 5, "the player's state is broken, or an undo's or redo's key is not as its entry says",
        "Selection or a used journal row out of range, frame not finite, reach + redo over 128, reach over standing, a \
        count or standing over 2^40, or accepted + redone ≠ undone + standing; or an open drag whose row is out of \
        range or, where keys are taken, whose starting key, put back, would break the key rules; or, while no drag is \
        open, an undo (redo) with an entry to take whose key isn't, bit for bit, as the entry left (found) it, or \
        whose return would break the key rules.";
    Animation = 6, "no such animation, or nothing is active",
        "Play, next name or what is touched from A up, the number of the sheet's animations; edit or opening of a drag \
        with nothing active.";
    NoSuch = 7, "no such track in the active animation, key, channel, pane, material, layer or origin",
        "Track not in the active animation, or no such key, channel, pane, material, layer, slot or origin.";
    NotFinite = 8, "a number is not finite, or UV layers or SRTs are not whole entries",
        "An argument, or in a playing tick the sum frame + dt·fps or the frame that it would leave, not finite; a UV \
        layer or SRT list not of whole entries.";
    Overtakes = 9, "the clamped frame is above the next key's",
        "Key edit or drag whose clamped frame is above the next key's (frames 1, 1, 1, the middle one edited), Constant \
        apart.";
    NotHermite = 10, "the curve is not Hermite",
        "Slope edit, curve not Hermite.";
    NothingToReturn = 11, "nothing to undo, or to redo",
        "Undo with reach 0; redo with an empty redo list.";
    Angle = 12, "an angle above 3,600 degrees",
        "An angle above 3,600 degrees in size; 3,600 passes.";
    OutputLength = 13, "an output is not exactly as long as it must be",
        "Outputs not exactly as long as they must be, the buffer of a save apart.";
    SaveLength = 14, "the buffer is not as long as the sheet",
        "A save into a buffer that is not as long as the sheet.";
    DragState = 15, "a drag is open, or none is",
        "An edit, undo, redo or opening while a drag is open; a drag, drop or abandonment while none is.";
}

impl Refusal {
    /// The refusal of this number, which is 1 to 15.
    ///
    /// ```
    /// use dovebolt::Refusal;
    ///
    /// assert_eq!(Refusal::from_number(12), Some(Refusal::Angle));
    /// assert_eq!(Refusal::from_number(16), None);
    /// ```
    pub fn from_number(number: u8) -> Option<Refusal> {
        let row = usize::from(number).checked_sub(1)?;
        Refusal::ALL.get(row).copied()
    }

    /// The refusal's number in the table.
    ///
    /// ```
    /// use dovebolt::Refusal;
    ///
    /// assert_eq!(Refusal::Angle.number(), 12);
    /// ```
    pub fn number(self) -> u8 {
        self as u8
    }
}

impl fmt::Display for Refusal {
    fn fmt(&self, f: &mut fmt::Formatter<'_>) -> fmt::Result {
        write!(f, "refusal {}: {}", self.number(), self.words())
    }
}

impl std::error::Error for Refusal {}

/// What the number that a call came back with means. The contracts allow 0 to 15.
#[inline]
pub(crate) fn checked(number: u8) -> Result<(), Refusal> {
    if number == 0 {
        return Ok(());
    }
    Err(Refusal::from_number(number).expect("a refusal's number is 1 to 15"))
}
