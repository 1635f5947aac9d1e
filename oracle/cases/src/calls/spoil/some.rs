//! Random spoils.

use super::drags::drag;
use super::{
    ACCEPTED, FRAME, KEY, OPEN, PLAYING, PREVIEW, REACH, REDONE, SELECTION, STANDING, Spoil, TRACK,
    UNDONE, replace,
};
use crate::bits::bits_of;
use crate::calls::held::Held;
use crate::calls::player::{Entry, Player, ROWS};
use crate::calls::table;
use crate::format::book::Book;
use crate::format::sheet::Sheet;
use crate::random::Random;
use crate::sheets::damage::mutated;

pub(super) const NAN: u32 = 0x7FC0_0000;
const MOST: u64 = 1 << 40;

/// Some changes that belong together; most break one rule.
pub fn any(random: &mut Random, held: &Held) -> Vec<Spoil> {
    if held.player.drag.open && random.once_in(2) {
        return drag(random, held);
    }
    match random.below(17) {
        0 => vec![view_field(random, held)],
        1..4 => vec![count(random, held)],
        4 => counts_that_agree(random, held),
        5..9 => vec![journal_field(random, held)],
        9..12 => key(random, held),
        12 => neighbour(random, held),
        13 => short(random, held),
        14 => vec![damaged_sheet(random, held)],
        15 => drag(random, held),
        _ => vec![changed_book(random, held)],
    }
}

/// What stands in a count.
fn count_of(p: &Player, field: u8) -> u64 {
    replace(&mut p.clone(), field, 0, 0)
}

pub(super) fn field(field: u8, value: u64) -> Spoil {
    Spoil::Field {
        field,
        row: 0,
        value,
    }
}

fn view_field(random: &mut Random, held: &Held) -> Spoil {
    let a = held.sheet.animations.len() as u64;
    let tame = u64::from(random.tame(60).to_bits());
    let other = random.below(held.sheet.animations.len()) as u64;
    match random.below(6) {
        0 | 1 => field(SELECTION, random.pick(&[a, a + 1, 65_534, 65_535, other])),
        2 => field(PLAYING, u64::from(!held.player.playing)),
        3 => field(PREVIEW, u64::from(!held.player.preview)),
        _ => field(
            FRAME,
            random.pick(&[u64::from(NAN), 0x7F80_0000, 0xFF80_0000, 0x8000_0000, tame]),
        ),
    }
}

/// One count alone: by one, at its edge, or far out.
fn count(random: &mut Random, held: &Held) -> Spoil {
    let number = REACH + random.below(6) as u8;
    let own = count_of(&held.player, number);
    let Player {
        reach,
        redo,
        standing,
        ..
    } = held.player;
    let rows = ROWS as u64;
    let value = random.pick(&[
        own.wrapping_add(1),
        own.wrapping_sub(1),
        own + 128,
        0,
        rows,
        rows + 1,
        rows.wrapping_sub(redo),
        rows.wrapping_sub(reach) + 1,
        standing + 1,
        MOST,
        MOST + 1,
        1 << 63,
        u64::MAX,
    ]);
    field(number, value)
}

/// Two counts that grow by the same, so that the sums agree: to 2^40, past it,
/// or by less. A multiple of 128 leaves each standing edit its row.
fn counts_that_agree(random: &mut Random, held: &Held) -> Vec<Spoil> {
    let pair = random.pick(&[(ACCEPTED, STANDING), (ACCEPTED, UNDONE), (REDONE, UNDONE)]);
    let [one, other] = [pair.0, pair.1].map(|number| count_of(&held.player, number));
    let to_the_edge = MOST - one.max(other);
    let grown = random.pick(&[
        128,
        to_the_edge,
        to_the_edge + 1,
        to_the_edge / 128 * 128,
        1 << 39,
    ]);
    vec![field(pair.0, one + grown), field(pair.1, other + grown)]
}

/// A number of a journal's row: most often of one that is used, at an end of
/// those or where undo and redo take it.
fn journal_field(random: &mut Random, held: &Held) -> Spoil {
    let p = &held.player;
    let first = p.standing.wrapping_sub(p.reach);
    let used = p.reach.wrapping_add(p.redo).clamp(1, 128) as usize;
    let within = random.below(used) as u64;
    let row = random.pick(&[
        first,
        first.wrapping_sub(1),
        p.standing.wrapping_sub(1),
        p.standing.wrapping_sub(1),
        p.standing,
        p.standing,
        p.standing.wrapping_add(p.redo).wrapping_sub(1),
        p.standing.wrapping_add(p.redo),
        first.wrapping_add(within),
    ]);
    let row = Player::row(row);
    let number = TRACK + random.below(usize::from(OPEN - TRACK)) as u8;
    let value = journal_value(random, held, p.journal[row], number);
    Spoil::Field {
        field: number,
        row: row as u8,
        value,
    }
}

fn journal_value(random: &mut Random, held: &Held, entry: Entry, number: u8) -> u64 {
    let targets = held.sheet.targets.len();
    match number {
        TRACK => number_around(random, targets),
        KEY => number_around(random, key_count(held, entry.track)),
        12..15 => u64::from(other_bits(random, entry.before[usize::from(number - 12)])),
        _ => u64::from(other_bits(random, entry.after[usize::from(number - 15)])),
    }
}

/// How many keys a track has, none where there is no such track.
pub(super) fn key_count(held: &Held, track: u16) -> usize {
    let target = held.sheet.targets.get(usize::from(track));
    target.map_or(0, |target| usize::from(target.key_count))
}

/// A number below n, n itself, or one above it.
pub(super) fn number_around(random: &mut Random, n: usize) -> u64 {
    let below = random.below(n.max(1));
    random.pick(&[n, n + 1, 65_535, below]) as u64
}

/// Bits near some others, or ones that a rule names.
pub(super) fn other_bits(random: &mut Random, bits: u32) -> u32 {
    let near = bits_of(f32::from_bits(bits ^ 1));
    let number = random.number().to_bits();
    let whole = (random.below(65_537) as f32).to_bits();
    random.pick(&[
        near,
        near,
        bits ^ 0x8000_0000,
        NAN,
        0x7F80_0000,
        number,
        whole,
        0,
    ])
}

/// One number of one key; of the key that undo or redo takes, or of any.
pub(super) fn key(random: &mut Random, held: &Held) -> Vec<Spoil> {
    if held.keys[0].is_empty() {
        return vec![view_field(random, held)];
    }
    let any = random.below(held.keys[0].len());
    let index = match random.below(3) {
        0 => any,
        1 => entry_place(held, held.player.standing.wrapping_sub(1)).unwrap_or(any),
        _ => entry_place(held, held.player.standing).unwrap_or(any),
    };
    let array = random.below(3);
    let bits = other_bits(random, bits_of(held.keys[array][index]));
    vec![Spoil::Key {
        array: array as u8,
        index: index as u16,
        bits,
    }]
}

/// Where the key of a journal's row is, if the row names one.
fn entry_place(held: &Held, number: u64) -> Option<usize> {
    let entry = held.player.journal[Player::row(number)];
    key_place(held, entry.track, entry.key)
}

/// Where a key is, if there is one.
pub(super) fn key_place(held: &Held, track: u16, key: u16) -> Option<usize> {
    let found = usize::from(key) < key_count(held, track);
    found.then(|| table::place(&held.sheet, track, key))
}

/// The neighbour's frame becomes the key's own: the keys keep their rules, but
/// what an undo or a redo returns may not.
fn neighbour(random: &mut Random, held: &Held) -> Vec<Spoil> {
    let number = held.player.standing.wrapping_sub(random.below(2) as u64);
    match entry_place(held, number) {
        Some(place) => neighbour_of(random, held, place),
        None => key(random, held),
    }
}

pub(super) fn neighbour_of(random: &mut Random, held: &Held, place: usize) -> Vec<Spoil> {
    let index = random.pick(&[place.wrapping_sub(1), place + 1]);
    if index >= held.keys[0].len() {
        return key(random, held);
    }
    vec![Spoil::Key {
        array: 0,
        index: index as u16,
        bits: bits_of(held.keys[0][place]),
    }]
}

fn short(random: &mut Random, held: &Held) -> Vec<Spoil> {
    if held.keys[0].is_empty() {
        return vec![view_field(random, held)];
    }
    vec![Spoil::Short(1 + random.below(3) as u8)]
}

/// Bytes that are no sheet.
fn damaged_sheet(random: &mut Random, held: &Held) -> Spoil {
    loop {
        let bytes = mutated(random, &held.sheet_bytes);
        if Sheet::read(&bytes).is_none() {
            return Spoil::Sheet(bytes);
        }
    }
}

/// Most often no book; now and then another one, with names in UTF-8.
fn changed_book(random: &mut Random, held: &Held) -> Spoil {
    loop {
        let bytes = mutated(random, &held.book.bytes);
        let named = Book::read(&bytes).is_none_or(|book| {
            let labels = book.panes.iter().map(|pane| pane.label);
            let mut names = labels.chain(book.materials.iter().map(|m| m.name));
            names.all(|name| std::str::from_utf8(&name).is_ok())
        });
        if named {
            return Spoil::Book(bytes);
        }
    }
}
