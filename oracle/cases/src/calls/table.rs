//! Document 01, "What a call declines", and rows 14 and 15 of document 02: each row
//! that a list of calls can meet, in plain words and in the order in which they
//! decline: 1 to 5, 14, 6, 15, 7 to 13. A row answers whether it declines.

use super::player::{Drag, Entry, Player, ROWS};
use super::reference::Reference;
use super::{Call, NONE, Request, View, buffer_length};
use crate::curves::{CONSTANT, HERMITE};
use crate::format::book::Book;
use crate::format::keys;
use crate::format::load::Arrays;
use crate::format::sheet::Sheet;
use crate::readings::whole::{MATERIAL_CHANNELS, PANE_CHANNELS};

/// How high a count goes.
const MOST: u64 = 1 << 40;

/// A material's layers, and its texture slots.
const LAYERS: u16 = 3;

/// "a key array is not K long"
pub fn row_3(sheet: &Sheet, lengths: [usize; 3]) -> bool {
    lengths != [sheet.frames.len(); 3]
}

/// "keys (at loading the sheet's, later the lent ones) break the key rules"
pub fn row_4(sheet: &Sheet, lent: &Arrays) -> bool {
    let [frames, values, slopes] = lent;
    !keys::ok(sheet, frames, values, slopes)
}

/// "selection or a used journal row out of range, frame not finite, reach + redo
/// over 128, reach over standing, a count or standing over 2^40, or accepted +
/// redone ≠ undone + standing", and of document 02 "an open drag whose row is out of
/// range"
pub fn row_5(sheet: &Sheet, player: &Player) -> bool {
    let selected = player.selection == NONE || has_animation(sheet, player.selection);
    let frame = f32::from_bits(player.frame).is_finite();
    !(selected
        && frame
        && counts_hold(player)
        && used_rows(player).all(|row| has_key(sheet, row.track, row.key))
        && (!player.drag.open || has_key(sheet, player.drag.track, player.drag.key)))
}

fn has_animation(sheet: &Sheet, animation: u16) -> bool {
    usize::from(animation) < sheet.animations.len()
}

/// The sums are of numbers that a u64 may not hold.
fn counts_hold(p: &Player) -> bool {
    let [reach, redo] = [p.reach, p.redo].map(u128::from);
    let [accepted, undone, redone, standing] =
        [p.accepted, p.undone, p.redone, p.standing].map(u128::from);
    reach + redo <= ROWS as u128
        && reach <= standing
        && [accepted, undone, redone, standing]
            .iter()
            .all(|&count| count <= u128::from(MOST))
        && accepted + redone == undone + standing
}

/// The rows of the last `reach` standing edits and of the redo list. The counts
/// hold.
fn used_rows(p: &Player) -> impl Iterator<Item = &Entry> {
    let numbers = p.standing - p.reach..p.standing + p.redo;
    numbers.map(|n| &p.journal[Player::row(n)])
}

/// The track is below T and the key below that track's key count.
fn has_key(sheet: &Sheet, track: u16, key: u16) -> bool {
    let target = sheet.targets.get(usize::from(track));
    target.is_some_and(|target| key < target.key_count)
}

/// "or, where keys are taken, whose starting key, put back, would break the key
/// rules". The drag's row is in range.
pub fn row_5_start(sheet: &Sheet, lent: &Arrays, drag: &Drag) -> bool {
    drag.open && breaks_rules(sheet, lent, place(sheet, drag.track, drag.key), drag.start)
}

/// Whether the keys with this one in its place would break the key rules.
fn breaks_rules(sheet: &Sheet, lent: &Arrays, place: usize, key: [u32; 3]) -> bool {
    let mut returned = lent.clone();
    (0..3).for_each(|i| returned[i][place] = f32::from_bits(key[i]));
    row_4(sheet, &returned)
}

/// "an undo (redo) with an entry to take whose key isn't, bit for bit, as the
/// entry left (found) it, or whose return would break the key rules". `now` is
/// how the entry left or found the key, `back` what returns.
pub fn row_5_return(
    sheet: &Sheet,
    lent: &Arrays,
    entry: Entry,
    now: [u32; 3],
    back: [u32; 3],
) -> bool {
    let place = place(sheet, entry.track, entry.key);
    lent.each_ref().map(|array| array[place].to_bits()) != now
        || breaks_rules(sheet, lent, place, back)
}

/// Where a track's key is among all keys.
pub fn place(sheet: &Sheet, track: u16, key: u16) -> usize {
    sheet.targets[usize::from(track)].keys().start + usize::from(key)
}

/// Row 14 of a save, which comes next: "when the buffer's length differs from the
/// sheet's".
pub fn save_rows(sheet: &Sheet, short: u8) -> u8 {
    let length = sheet.length();
    if buffer_length(length, short) == length {
        0
    } else {
        14
    }
}

/// "play from A up", where none is no number from A up.
pub fn play_rows(sheet: &Sheet, animation: u16) -> u8 {
    let ok = animation == NONE || has_animation(sheet, animation);
    if ok { 0 } else { 6 }
}

/// "an argument .. not finite"
pub fn pose_rows(frame: f32) -> u8 {
    if frame.is_finite() { 0 } else { 8 }
}

/// "an argument, or in a playing tick the sum frame + dt·fps or the frame that
/// it would leave, not finite"
pub fn tick_rows(reference: &mut Reference, view: View, dt: f32, fps: f32) -> u8 {
    if !(dt.is_finite() && fps.is_finite()) {
        return 8;
    }
    if view.selection == NONE || !view.playing {
        return 0;
    }
    let sum = view.frame + dt * fps;
    let left = reference.tick(view, dt, fps).0.frame;
    if sum.is_finite() && left.is_finite() {
        0
    } else {
        8
    }
}

/// Rows 6, 15 and 7 of an edit or an opening: "nothing active"; "another edit or a
/// second opening while a drag is open"; "track not in the active animation, or no
/// such key".
pub fn opening_rows(sheet: &Sheet, selection: u16, open: bool, track: u16, key: u16) -> u8 {
    if selection == NONE {
        return 6;
    }
    if open {
        return 15;
    }
    let own = has_key(sheet, track, key) && animation(sheet, track) == selection;
    if own { 0 } else { 7 }
}

/// The animation of a track that there is.
pub fn animation(sheet: &Sheet, track: u16) -> u16 {
    let target = &sheet.targets[usize::from(track)];
    u16::from(sheet.contents[usize::from(target.content)].animation)
}

/// Row 15 of drag, drop and abandon: "while none is".
pub fn drag_rows(open: bool) -> u8 {
    if open { 0 } else { 15 }
}

/// Rows 15 and 11 of an undo or a redo: "while a drag is open"; "undo with reach 0;
/// redo with an empty redo list".
pub fn take_rows(open: bool, entries: u64) -> u8 {
    match (open, entries) {
        (true, _) => 15,
        (false, 0) => 11,
        (false, _) => 0,
    }
}

/// Rows 8 to 10 of an edit or a drag of a key that there is: an argument not finite;
/// "clamped frame above the next key's, Constant apart"; "slope edit, curve not
/// Hermite". The clamp is the published text's: the edit is made there, looked at,
/// and taken back.
pub fn request_rows(
    sheet: &Sheet,
    reference: &mut Reference,
    lent: &Arrays,
    animation: u16,
    (track, key, request): (u16, u16, Request),
) -> u8 {
    let target = &sheet.targets[usize::from(track)];
    match request {
        Request::Key { frame, value } => {
            if !(frame.is_finite() && value.is_finite()) {
                return 8;
            }
            if target.curve == CONSTANT || key + 1 == target.key_count {
                return 0;
            }
            reference.edit(animation, track, key, request);
            let clamped = reference.key(usize::from(track), usize::from(key))[0];
            reference.put(usize::from(track), lent);
            let next = lent[0][place(sheet, track, key) + 1];
            if clamped > next { 9 } else { 0 }
        }
        Request::Slope(slope) => match (slope.is_finite(), target.curve) {
            (false, _) => 8,
            (true, HERMITE) => 0,
            (true, _) => 10,
        },
    }
}

/// Rows 7 and 13 of a reading: "no such .. channel, pane, material"; "outputs
/// not exactly as long".
pub fn reading_rows(book: &Book, call: &Call) -> u8 {
    let has_pane = |pane: u16| usize::from(pane) < book.panes.len();
    let has_material = |material: u16| usize::from(material) < book.materials.len();
    let found = match *call {
        Call::ReadPane { pane, channel } => has_pane(pane) && usize::from(channel) < PANE_CHANNELS,
        Call::ReadMaterial { material, channel } => {
            has_material(material) && usize::from(channel) < MATERIAL_CHANNELS
        }
        Call::ResolvePane(pane) => has_pane(pane),
        Call::ResolveSrt { material, layer } => has_material(material) && layer < LAYERS,
        Call::TextureName { material, slot } => has_material(material) && slot < LAYERS,
        Call::ReadAll { short } | Call::Cascade { short } => {
            return if short == 0 { 0 } else { 13 };
        }
        _ => true,
    };
    if found { 0 } else { 7 }
}
