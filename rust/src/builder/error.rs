//! What keeps a sheet or a book from being built, and in which row.

use std::fmt;

use crate::refusal::Refusal;

/// Why a sheet or a book can't be built: the first row that breaks a rule, and the rule.
///
/// ```
/// use dovebolt::{PaneChannel, Problem, Row, SheetBuilder};
///
/// let mut sheet = SheetBuilder::new();
/// let appear = sheet.animation(16);
/// appear.pane("Logo").hermite(PaneChannel::TranslateY, &[(4.0, 360.0, 0.0), (3.0, 96.0, 0.0)]);
/// let error = sheet.build().unwrap_err();
/// assert_eq!(error.row(), Row::Key { track: 0, key: 1 });
/// assert_eq!(error.problem(), &Problem::FrameFalls { before: 4.0, frame: 3.0 });
/// assert_eq!(
///     error.to_string(),
///     "animation 0, content 0 (pane \"Logo\"), track 0 (translate_y), key 1: the frame falls from 4 to 3"
/// );
/// ```
#[derive(Clone, Debug, PartialEq)]
pub struct BuildError {
    row: Row,
    /// The row in words, from the outermost in.
    place: String,
    problem: Problem,
}

impl BuildError {
    pub(super) fn new(row: Row, place: impl fmt::Display, problem: Problem) -> BuildError {
        BuildError {
            row,
            place: place.to_string(),
            problem,
        }
    }

    /// With the row that this one is in before it.
    pub(super) fn within(self, outer: impl fmt::Display) -> BuildError {
        let place = format!("{outer}, {}", self.place);
        BuildError { place, ..self }
    }

    /// The row that breaks a rule.
    pub fn row(&self) -> Row {
        self.row
    }

    /// What is wrong with it.
    pub fn problem(&self) -> &Problem {
        &self.problem
    }
}

impl fmt::Display for BuildError {
    fn fmt(&self, f: &mut fmt::Formatter<'_>) -> fmt::Result {
        write!(f, "{}: {}", self.place, self.problem)
    }
}

impl std::error::Error for BuildError {}

/// A row by its number in the sheet or in the book, from 0 up. A key's number is counted within its track.
///
/// ```
/// assert_eq!(dovebolt::Row::Key { track: 5, key: 1 }.to_string(), "track 5, key 1");
/// ```
#[derive(Clone, Copy, Debug, PartialEq, Eq, Hash)]
pub enum Row {
    /// The sheet as a whole.
    Sheet,
    Animation(usize),
    Content(usize),
    Track(usize),
    Key {
        track: usize,
        key: usize,
    },
    Texture(usize),
    /// The book as a whole.
    Book,
    Pane(usize),
    Material(usize),
}

impl fmt::Display for Row {
    fn fmt(&self, f: &mut fmt::Formatter<'_>) -> fmt::Result {
        match self {
            Row::Sheet => write!(f, "the sheet"),
            Row::Animation(number) => write!(f, "animation {number}"),
            Row::Content(number) => write!(f, "content {number}"),
            Row::Track(number) => write!(f, "track {number}"),
            Row::Key { track, key } => write!(f, "track {track}, key {key}"),
            Row::Texture(number) => write!(f, "texture {number}"),
            Row::Book => write!(f, "the book"),
            Row::Pane(number) => write!(f, "pane {number}"),
            Row::Material(number) => write!(f, "material {number}"),
        }
    }
}

/// What is wrong with a row.
///
/// ```
/// let problem = dovebolt::Problem::TooMany { most: 8 };
/// assert_eq!(problem.to_string(), "there are 8 at most");
/// ```
#[derive(Clone, Debug, PartialEq)]
pub enum Problem {
    /// It is one more than a sheet or a book has of its kind.
    TooMany { most: usize },
    /// A sheet without an animation.
    NoAnimation,
    /// A book without a pane.
    NoPane,
    /// A name of more than 24 bytes.
    LongName { bytes: usize },
    /// A name with a zero byte: in a file zero bytes fill a name up.
    ZeroByte,
    /// A label, a name of a material, or one that refers to such a name or to an animation, is not empty.
    EmptyName,
    /// A label, or a name of a material, that an earlier row has.
    NameTaken { by: Row },
    /// No earlier pane has this label.
    NoParent { label: String },
    /// A frame below that of the key before it.
    FrameFalls { before: f32, frame: f32 },
    /// A Step curve's value is a whole number 0 to 65,535, and not −0.
    NotWhole { value: f32 },
    /// A NaN or an infinity, and what it is.
    NotFinite { what: &'static str, number: f32 },
    /// Every row passed, and yet the proved code declines what was built.
    Declined(Refusal),
}

impl fmt::Display for Problem {
    fn fmt(&self, f: &mut fmt::Formatter<'_>) -> fmt::Result {
        match self {
            Problem::TooMany { most } => write!(f, "there are {most} at most"),
            Problem::NoAnimation => write!(f, "there is no animation"),
            Problem::NoPane => write!(f, "there is no pane"),
            Problem::LongName { bytes } => write!(f, "the name has {bytes} bytes, 24 at most fit"),
            Problem::ZeroByte => write!(f, "the name has a zero byte"),
            Problem::EmptyName => write!(f, "the name is empty"),
            Problem::NameTaken { by } => write!(f, "{by} has the same name"),
            Problem::NoParent { label } => write!(f, "its parent {label:?} is no earlier pane"),
            Problem::FrameFalls { before, frame } => {
                write!(f, "the frame falls from {before} to {frame}")
            }
            Problem::NotWhole { value } => {
                write!(
                    f,
                    "the Step value {value} is not a whole number 0 to 65,535"
                )
            }
            Problem::NotFinite { what, number } => write!(f, "the {what} is not finite: {number}"),
            Problem::Declined(refusal) => write!(f, "{refusal}"),
        }
    }
}
