//! The two sheets that are compared, and what the proved call says of their keys.

use dovebolt::{Animation, BookView, Keys, Player, SheetView, Touched, touched};

use crate::common::named;
use crate::drawing::menu::Menu;

/// The files' names, as they were given.
pub struct Files {
    pub old: String,
    pub new: String,
    pub book: String,
}

/// Two sets of keys of one sheet.
pub struct Pair<'a> {
    pub files: Files,
    pub sheet: SheetView<'a>,
    pub book: BookView<'a>,
    pub before: Keys,
    pub after: Keys,
    /// By animation.
    pub touched: Vec<Touched>,
}

impl<'a> Pair<'a> {
    /// A failure names the file that is declined, or where the sheets differ in more than keys.
    pub fn of(files: Files, old: &'a [u8], new: &[u8], book: &'a [u8]) -> Result<Pair<'a>, String> {
        let sheet = named(&files.old, SheetView::of(old))?;
        let other = named(&files.new, SheetView::of(new))?;
        let view = named(&files.book, BookView::of(book))?;
        if let Some(differ) = more_than_keys(sheet, other) {
            let Files { old, new, .. } = files;
            return Err(format!(
                "{old} and {new} differ in more than keys: {differ}"
            ));
        }
        let (_, before) = named(&files.old, Player::load(old))?;
        let (_, after) = named(&files.new, Player::load(new))?;
        let mut marks = vec![];
        for animation in sheet.animations() {
            let number = animation.number;
            let told = touched(old, book, &before, &after, number);
            marks.push(named(&format!("animation {number}"), told)?);
        }
        Ok(Pair {
            files,
            sheet,
            book: view,
            before,
            after,
            touched: marks,
        })
    }

    pub fn touched(&self, animation: u16) -> &Touched {
        &self.touched[usize::from(animation)]
    }

    /// An animation with the keys before, and with those after.
    pub fn menus(&self, animation: Animation) -> [Menu<'a>; 2] {
        let menu = |name: &str, keys: &Keys| Menu {
            name: name.to_string(),
            sheet: self.sheet,
            book: self.book,
            keys: keys.clone(),
            animation,
        };
        [menu("before", &self.before), menu("after", &self.after)]
    }
}

/// The first row in which two sheets differ, keys apart.
fn more_than_keys(old: SheetView, new: SheetView) -> Option<String> {
    let counts = |sheet: SheetView| {
        [
            ("animations", sheet.animations().len()),
            ("contents", sheet.contents().len()),
            ("tracks", sheet.tracks().len()),
            ("keys", sheet.key_count()),
            ("texture names", sheet.textures().len()),
        ]
    };
    let mut both = counts(old).into_iter().zip(counts(new));
    if let Some(((rows, a), (_, b))) = both.find(|(a, b)| a != b) {
        return Some(format!("they have {a} and {b} {rows}"));
    }
    let row = |name: &str, differs: Option<usize>| {
        differs.map(|number| format!("{name} {number} is another"))
    };
    let animation = old
        .animations()
        .zip(new.animations())
        .position(|(a, b)| a != b);
    let content = old.contents().zip(new.contents()).position(|(a, b)| a != b);
    let track = old.tracks().zip(new.tracks()).position(|(a, b)| a != b);
    let texture = old.textures().zip(new.textures()).position(|(a, b)| a != b);
    row("animation", animation)
        .or_else(|| row("content", content))
        .or_else(|| row("track", track))
        .or_else(|| row("texture name", texture))
}
