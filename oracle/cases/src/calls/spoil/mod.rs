//! Spoiled states: a field of the player, a key, the length of a key array, the
//! sheet or the book set to something else, which may break a rule or not.

mod drags;
pub mod some;

use super::held::Held;
use super::player::Player;
use crate::bits::bits_of;
use crate::format::sheet::Sheet;

#[derive(Clone, Debug)]
pub enum Spoil {
    /// The player's field by its number, and the journal's row where it has one.
    Field { field: u8, row: u8, value: u64 },
    /// A key's number: array 0 frames, 1 values, 2 slopes.
    Key { array: u8, index: u16, bits: u32 },
    /// One array is handed on one short from now on: 0 none, 1 frames, 2 values,
    /// 3 slopes; or one long, 4 to 6.
    Short(u8),
    /// Other bytes are lent for the sheet, which are no sheet, or the sheet again.
    Sheet(Vec<u8>),
    /// Other bytes are lent for the book.
    Book(Vec<u8>),
}

/// The player's fields by number. From 12 on the entry's frame, value and slope
/// before, then after; from 22 on those of a drag's starting key.
pub const SELECTION: u8 = 0;
pub const PLAYING: u8 = 1;
pub const PREVIEW: u8 = 2;
pub const FRAME: u8 = 3;
pub const REACH: u8 = 4;
pub const REDO: u8 = 5;
pub const ACCEPTED: u8 = 6;
pub const UNDONE: u8 = 7;
pub const REDONE: u8 = 8;
pub const STANDING: u8 = 9;
pub const TRACK: u8 = 10;
pub const KEY: u8 = 11;
pub const NUMBERS: u8 = 12;
pub const OPEN: u8 = 18;
pub const MOVED: u8 = 19;
pub const DRAG_TRACK: u8 = 20;
pub const DRAG_KEY: u8 = 21;
pub const START: u8 = 22;
pub const FIELDS: u8 = 25;

impl Spoil {
    /// Whether it sets what the plain machine has too: what is selected and
    /// shown, or the book, which its readings take.
    pub fn is_plain(&self) -> bool {
        match self {
            Spoil::Field { field, .. } => *field <= FRAME,
            Spoil::Book(_) => true,
            _ => false,
        }
    }

    /// Makes the change, and gives the one that takes it back.
    pub fn make(&self, held: &mut Held) -> Spoil {
        match self {
            &Spoil::Field { field, row, value } => {
                let value = replace(&mut held.player, field, usize::from(row), value);
                Spoil::Field { field, row, value }
            }
            &Spoil::Key { array, index, bits } => {
                let (i, at) = (usize::from(array), usize::from(index));
                let old = bits_of(held.keys[i][at]);
                held.set_key(i, at, f32::from_bits(bits));
                let bits = old;
                Spoil::Key { array, index, bits }
            }
            &Spoil::Short(array) => Spoil::Short(std::mem::replace(&mut held.short, array)),
            Spoil::Sheet(bytes) => {
                held.sheet_damaged = Sheet::read(bytes).is_none();
                Spoil::Sheet(std::mem::replace(&mut held.sheet_bytes, bytes.clone()))
            }
            Spoil::Book(bytes) => {
                let old = held.book.bytes.clone();
                held.book.put(bytes.clone());
                Spoil::Book(old)
            }
        }
    }
}

/// Sets a field, and gives what stood there. A flag is 0 or 1.
fn replace(p: &mut Player, field: u8, row: usize, value: u64) -> u64 {
    let swap = |place: &mut u64| std::mem::replace(place, value);
    let swap_flag = |place: &mut bool| u64::from(std::mem::replace(place, value == 1));
    let swap_short = |place: &mut u16| u64::from(std::mem::replace(place, value as u16));
    let swap_bits = |place: &mut u32| {
        let bits = bits_of(f32::from_bits(value as u32));
        u64::from(std::mem::replace(place, bits))
    };
    let entry = &mut p.journal[row];
    match field {
        SELECTION => swap_short(&mut p.selection),
        PLAYING => swap_flag(&mut p.playing),
        PREVIEW => swap_flag(&mut p.preview),
        FRAME => swap_bits(&mut p.frame),
        REACH => swap(&mut p.reach),
        REDO => swap(&mut p.redo),
        ACCEPTED => swap(&mut p.accepted),
        UNDONE => swap(&mut p.undone),
        REDONE => swap(&mut p.redone),
        STANDING => swap(&mut p.standing),
        TRACK => swap_short(&mut entry.track),
        KEY => swap_short(&mut entry.key),
        12..15 => swap_bits(&mut entry.before[usize::from(field - NUMBERS)]),
        15..18 => swap_bits(&mut entry.after[usize::from(field - NUMBERS - 3)]),
        OPEN => swap_flag(&mut p.drag.open),
        MOVED => swap_flag(&mut p.drag.moved),
        DRAG_TRACK => swap_short(&mut p.drag.track),
        DRAG_KEY => swap_short(&mut p.drag.key),
        START..FIELDS => swap_bits(&mut p.drag.start[usize::from(field - START)]),
        _ => panic!("no field {field}"),
    }
}
