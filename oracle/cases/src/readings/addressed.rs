//! Document 01, "Channels", in plain words of its own: which channel a target
//! addresses, and which target decides a channel.

use super::whole::{MATERIAL_CHANNELS, PANE_CHANNELS};
use crate::format::book::Book;
use crate::format::sheet::{Sheet, Target};

/// The channel that a target addresses, if any, by its place in a whole reading.
pub fn channel(sheet: &Sheet, book: &Book, target: &Target) -> Option<usize> {
    let content = &sheet.contents[usize::from(target.content)];
    let (raw, layer) = (usize::from(target.raw), usize::from(target.layer));
    let listed = |count: usize| if raw < count { raw } else { 0 };
    match content.kind {
        0 | 3 => {
            let mut panes = book.panes.iter();
            let pane = panes.position(|p| p.label == content.name)?;
            let own = match &target.code {
                b"FLPA" => listed(10),
                b"FLVI" => 10,
                b"FLVC" if raw == 16 => 11,
                b"FLVC" => 12 + listed(17),
                _ => return None,
            };
            Some(PANE_CHANNELS * pane + own)
        }
        1 => {
            let mut rows = book.materials.iter();
            let material = rows.position(|m| m.name == content.name)?;
            let own = match &target.code {
                b"FLTS" if layer < 3 => 5 * layer + listed(5),
                b"FLTP" if layer < 3 => 15 + layer,
                b"FLIM" => 18 + listed(3),
                b"FLAC" => 21,
                b"FLMC" if listed(28) < 4 => 22 + listed(28),
                b"FLMC" => 26 + listed(28) % 4,
                _ => return None,
            };
            Some(PANE_CHANNELS * book.panes.len() + MATERIAL_CHANNELS * material + own)
        }
        _ => None,
    }
}

/// How many channels a book has.
pub fn channels(book: &Book) -> usize {
    PANE_CHANNELS * book.panes.len() + MATERIAL_CHANNELS * book.materials.len()
}

/// For each channel the target that decides it while an animation is active: the last
/// that addresses it, in sheet order.
pub fn deciding(sheet: &Sheet, book: &Book, animation: usize) -> Vec<Option<usize>> {
    let mut last = vec![None; channels(book)];
    for (number, target) in sheet.targets.iter().enumerate() {
        let content = &sheet.contents[usize::from(target.content)];
        if usize::from(content.animation) != animation {
            continue;
        }
        if let Some(channel) = channel(sheet, book, target) {
            last[channel] = Some(number);
        }
    }
    last
}
