//! What a caller reads of a sheet or a book by itself: sizes, and names.

use std::borrow::Cow;
use std::fmt;

use crate::channels::{MaterialChannel, PaneChannel};
use crate::raw;
use crate::refusal::{Refusal, checked};

/// The u16 at `at`, or 0 past the end.
fn u16_at(bytes: &[u8], at: usize) -> usize {
    match bytes.get(at..at + 2) {
        Some(pair) => usize::from(u16::from_le_bytes([pair[0], pair[1]])),
        None => 0,
    }
}

/// How many keys the sheet says that it has: the length of each key array. The sheet is not checked here.
///
/// ```
/// assert_eq!(dovebolt::key_count(&dovebolt::example::sheet()), 9);
/// ```
pub fn key_count(sheet: &[u8]) -> usize {
    u16_at(sheet, 6)
}

/// How many panes the book says that it has. The book is not checked here.
///
/// ```
/// assert_eq!(dovebolt::pane_count(&dovebolt::example::book()), 2);
/// ```
pub fn pane_count(book: &[u8]) -> usize {
    u16_at(book, 0)
}

/// How many materials the book says that it has. The book is not checked here.
///
/// ```
/// assert_eq!(dovebolt::material_count(&dovebolt::example::book()), 1);
/// ```
pub fn material_count(book: &[u8]) -> usize {
    u16_at(book, 2)
}

/// How many channels a whole reading of this book has. The book is not checked here.
///
/// ```
/// assert_eq!(dovebolt::channel_count(&dovebolt::example::book()), 28 * 2 + 30);
/// ```
pub fn channel_count(book: &[u8]) -> usize {
    pane_count(book) * PaneChannel::ALL.len() + material_count(book) * MaterialChannel::ALL.len()
}

/// A name of a sheet or a book: 24 bytes, of which zero bytes at the end don't count.
///
/// ```
/// use dovebolt::Name;
///
/// let mut field = [0; 24];
/// field[..4].copy_from_slice(b"Idle");
/// assert_eq!(Name(field).to_string(), "Idle");
/// ```
#[derive(Clone, Copy, PartialEq, Eq, Hash)]
pub struct Name(pub [u8; 24]);

impl Name {
    /// The bytes that count.
    ///
    /// ```
    /// let name = dovebolt::next_name(&dovebolt::example::sheet(), 0)?;
    /// assert_eq!(name.bytes(), b"Idle");
    /// # Ok::<(), dovebolt::Refusal>(())
    /// ```
    pub fn bytes(&self) -> &[u8] {
        let end = self
            .0
            .iter()
            .rposition(|b| *b != 0)
            .map_or(0, |last| last + 1);
        &self.0[..end]
    }

    /// The name as text; bytes that are not UTF-8 are replaced.
    ///
    /// ```
    /// let name = dovebolt::next_name(&dovebolt::example::sheet(), 0)?;
    /// assert_eq!(name.text(), "Idle");
    /// # Ok::<(), dovebolt::Refusal>(())
    /// ```
    pub fn text(&self) -> Cow<'_, str> {
        String::from_utf8_lossy(self.bytes())
    }

    /// Whether no byte counts.
    ///
    /// ```
    /// assert!(dovebolt::Name([0; 24]).is_empty());
    /// ```
    pub fn is_empty(&self) -> bool {
        self.bytes().is_empty()
    }
}

impl fmt::Display for Name {
    fn fmt(&self, f: &mut fmt::Formatter<'_>) -> fmt::Result {
        f.write_str(&self.text())
    }
}

impl fmt::Debug for Name {
    fn fmt(&self, f: &mut fmt::Formatter<'_>) -> fmt::Result {
        write!(f, "Name({:?})", self.text())
    }
}

/// The name of the animation that follows `animation`, empty where none does. Refusals 1, 6.
///
/// ```
/// use dovebolt::{Refusal, example, next_name};
///
/// let sheet = example::sheet();
/// assert_eq!(next_name(&sheet, 0)?.text(), "Idle");
/// assert!(next_name(&sheet, 1)?.is_empty());
/// assert_eq!(next_name(&sheet, 2), Err(Refusal::Animation));
/// # Ok::<(), dovebolt::Refusal>(())
/// ```
pub fn next_name(sheet: &[u8], animation: u16) -> Result<Name, Refusal> {
    let mut name = Name([0; 24]);
    next_name_into(sheet, animation, &mut name.0)?;
    Ok(name)
}

/// The same into a lent output, which must be 24 long. Refusals 1, 6, 13.
///
/// ```
/// use dovebolt::{Refusal, example, next_name_into};
///
/// let sheet = example::sheet();
/// let mut out = [0; 24];
/// next_name_into(&sheet, 0, &mut out)?;
/// assert_eq!(&out[..5], b"Idle\0");
/// assert_eq!(next_name_into(&sheet, 0, &mut out[1..]), Err(Refusal::OutputLength));
/// # Ok::<(), dovebolt::Refusal>(())
/// ```
pub fn next_name_into(sheet: &[u8], animation: u16, out: &mut [u8]) -> Result<(), Refusal> {
    // SAFETY: each pointer has the length of its slice, and `out` is lent alone.
    checked(unsafe {
        raw::menu_next_name(
            sheet.as_ptr(),
            sheet.len(),
            animation,
            out.as_mut_ptr(),
            out.len(),
        )
    })
}
