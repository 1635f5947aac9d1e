//! What is spoiled alone, and together.

use crate::bits::bits_of;
use crate::calls::held::Held;
use crate::calls::player::{Player, ROWS};
use crate::calls::spoil::{self, Spoil};

const MOST: u64 = 1 << 40;

/// Each set of spoils is made by itself.
pub fn spoils(held: &Held) -> Vec<Vec<Spoil>> {
    let single = views()
        .chain(counts(&held.player))
        .chain(drags(held))
        .chain(journals(held))
        .chain(keys(held))
        .chain(lent(held));
    let single = single.map(|spoil| vec![spoil]);
    let pairs = agreeing(&held.player);
    let groups = pairs.chain(opened()).chain(together(held));
    single.chain(groups).collect()
}

/// Several of rows 1 to 5 broken at once: the lowest number declines.
fn together(held: &Held) -> impl Iterator<Item = Vec<Spoil>> {
    let broken = [
        Spoil::Sheet(cut(&held.sheet_bytes)),
        Spoil::Book(cut(&held.book.bytes)),
        Spoil::Short(1),
        Spoil::Key {
            array: 1,
            index: 0,
            bits: NUMBERS[0],
        },
        field(spoil::FRAME, 0, u64::from(NUMBERS[0])),
    ];
    let subsets = (0u32..1 << broken.len()).filter(|set| set.count_ones() > 1);
    subsets.map(move |set| {
        let chosen = broken.iter().enumerate();
        let chosen = chosen.filter(|(i, _)| set >> i & 1 == 1);
        chosen.map(|(_, spoil)| spoil.clone()).collect()
    })
}

/// Without the last byte.
fn cut(bytes: &[u8]) -> Vec<u8> {
    bytes[..bytes.len() - 1].to_vec()
}

fn field(field: u8, row: usize, value: u64) -> Spoil {
    Spoil::Field {
        field,
        row: row as u8,
        value,
    }
}

fn views() -> impl Iterator<Item = Spoil> {
    let selections = [0, 1, 2, 3, 255, 256, 65_534, 65_535].into_iter();
    let flags = [0, 1].into_iter();
    let frames = NUMBERS.into_iter().map(u64::from);
    selections
        .map(|n| field(spoil::SELECTION, 0, n))
        .chain(flags.clone().map(|n| field(spoil::PLAYING, 0, n)))
        .chain(flags.map(|n| field(spoil::PREVIEW, 0, n)))
        .chain(frames.map(|bits| field(spoil::FRAME, 0, bits)))
}

/// Numbers that a rule names, or none does.
const NUMBERS: [u32; 16] = [
    0x7FC0_0000, // NaN
    0x7F80_0000, // the infinities
    0xFF80_0000,
    0x0000_0000,
    0x8000_0000, // -0
    0x0000_0001, // the smallest above 0
    0x7F7F_FFFF, // the largest
    0xFF7F_FFFF,
    0x3F00_0000, // 0.5
    0x3F80_0000, // 1
    0xBF80_0000, // -1
    0x4080_0000, // 4
    0x4100_0000, // 8
    0x4270_0000, // 60
    0x477F_FF00, // 65,535
    0x4780_0000, // 65,536
];

/// Tracks and keys, of which each sheet has three.
const PLACES: [u64; 8] = [0, 1, 2, 3, 4, 255, 256, 65_535];

fn counts(player: &Player) -> impl Iterator<Item = Spoil> {
    let own = [
        player.reach,
        player.redo,
        player.accepted,
        player.undone,
        player.redone,
        player.standing,
    ];
    (spoil::REACH..=spoil::STANDING)
        .zip(own)
        .flat_map(|(number, own)| {
            let near = [own.wrapping_sub(1), own + 1, own + 128, own + (1 << 32)];
            let sizes = [0, 1, 107, 108, 109, 127, 128, 129, 140, 1 << 16, 1 << 32];
            let far = [MOST - 1, MOST, MOST + 1, 1 << 63, u64::MAX - 127, u64::MAX];
            let all = near.into_iter().chain(sizes).chain(far);
            all.map(move |value| field(number, 0, value))
        })
}

/// Every number of the drag, open or not.
fn drags(held: &Held) -> impl Iterator<Item = Spoil> {
    let drag = held.player.drag;
    let flags = [spoil::OPEN, spoil::MOVED];
    let flags = flags
        .into_iter()
        .flat_map(|flag| [0, 1].map(|n| field(flag, 0, n)));
    let places = [spoil::DRAG_TRACK, spoil::DRAG_KEY];
    let places = places
        .into_iter()
        .flat_map(|place| PLACES.map(|n| field(place, 0, n)));
    let start = (0..3).flat_map(move |i| {
        let own = f32::from_bits(drag.start[i]);
        let near = [own, own.next_up(), own.next_down(), -own];
        let frames = held.keys[0].iter();
        let frames = frames.flat_map(|frame| [*frame, frame.next_up(), frame.next_down()]);
        let all = NUMBERS
            .map(f32::from_bits)
            .into_iter()
            .chain(near)
            .chain(frames);
        all.map(move |x| field(spoil::START + i as u8, 0, u64::from(bits_of(x))))
    });
    flags.chain(places).chain(start)
}

/// Drags of a few keys, of keys and a track past the last, open or closed, accepted or
/// not, from 0, from 1 and from a NaN: their fields are looked at only while one is
/// open, and the starting key only where keys are taken.
fn opened() -> impl Iterator<Item = Vec<Spoil>> {
    let rows = [
        (0, 0),
        (0, 2),
        (0, 3),
        (1, 1),
        (1, 3),
        (2, 2),
        (2, 3),
        (3, 0),
    ];
    let flags = (0..4).flat_map(move |flags| rows.map(|row| (flags, row)));
    let numbers = [0x0000_0000, 0x3F80_0000, NUMBERS[0]];
    flags.flat_map(move |(flags, (track, key))| {
        numbers.map(|bits| {
            let start = (spoil::START..spoil::FIELDS).map(|f| field(f, 0, u64::from(bits)));
            let row = [
                field(spoil::OPEN, 0, flags & 1),
                field(spoil::MOVED, 0, flags >> 1),
                field(spoil::DRAG_TRACK, 0, track),
                field(spoil::DRAG_KEY, 0, key),
            ];
            row.into_iter().chain(start).collect()
        })
    })
}

/// Two counts that grow alike, so that the sums agree: to their bound and past
/// it, and by a multiple of 128, which leaves each standing edit its row.
fn agreeing(player: &Player) -> impl Iterator<Item = Vec<Spoil>> {
    let pairs = [
        (
            spoil::ACCEPTED,
            player.accepted,
            spoil::STANDING,
            player.standing,
        ),
        (
            spoil::ACCEPTED,
            player.accepted,
            spoil::UNDONE,
            player.undone,
        ),
        (
            spoil::REDONE,
            player.redone,
            spoil::STANDING,
            player.standing,
        ),
        (spoil::REDONE, player.redone, spoil::UNDONE, player.undone),
    ];
    pairs.into_iter().flat_map(|(one, a, other, b)| {
        let edge = MOST - a.max(b);
        let grown = [1, 127, 128, edge / 128 * 128, edge, edge + 1];
        grown.map(|n| vec![field(one, 0, a + n), field(other, 0, b + n)])
    })
}

/// Every number of every row, used or not.
fn journals(held: &Held) -> impl Iterator<Item = Spoil> {
    (0..ROWS).flat_map(|row| {
        let entry = held.player.journal[row];
        let tracks = PLACES.map(|n| field(spoil::TRACK, row, n));
        let keys = PLACES.map(|n| field(spoil::KEY, row, n));
        let numbers = entry
            .before
            .into_iter()
            .chain(entry.after)
            .zip(spoil::NUMBERS..);
        let numbers = numbers.flat_map(move |(own, number)| {
            let others = [
                own ^ 1,
                own ^ 0x8000_0000,
                0x7FC0_0000,
                0x3F00_0000,
                0x4100_0000,
            ];
            others.map(|bits| field(number, row, u64::from(bits)))
        });
        tracks.into_iter().chain(keys).chain(numbers)
    })
}

/// Every number of every key.
fn keys(held: &Held) -> impl Iterator<Item = Spoil> {
    (0..3).flat_map(move |array| {
        (0..held.keys[array].len()).flat_map(move |index| {
            let own = held.keys[array][index];
            let near = [own.next_up(), own.next_down(), -own].map(bits_of);
            let all = near.into_iter().chain(NUMBERS);
            let own_frames = held.keys[0].iter().map(|&x| bits_of(x));
            all.chain(own_frames).map(move |bits| Spoil::Key {
                array: array as u8,
                index: index as u16,
                bits,
            })
        })
    })
}

/// What is lent beside the player: the key arrays' lengths, sheet and book.
fn lent(held: &Held) -> impl Iterator<Item = Spoil> {
    let longer = |bytes: &[u8]| [bytes, &[0]].concat();
    let (s, b) = (&held.sheet_bytes, &held.book.bytes);
    let bytes = [
        Spoil::Sheet(cut(s)),
        Spoil::Sheet(longer(s)),
        Spoil::Sheet(Vec::new()),
        Spoil::Book(cut(b)),
        Spoil::Book(longer(b)),
        Spoil::Book(Vec::new()),
    ];
    (1..7).map(Spoil::Short).chain(bytes)
}
