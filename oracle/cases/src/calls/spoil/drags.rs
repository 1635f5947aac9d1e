//! Random spoils of a drag. Closed, none of its fields is looked at.

use super::some::{NAN, field, key, key_count, key_place, neighbour_of, number_around, other_bits};
use super::{DRAG_KEY, DRAG_TRACK, MOVED, OPEN, START, Spoil};
use crate::bits::bits_of;
use crate::calls::held::Held;
use crate::calls::player::Drag;
use crate::random::Random;

/// One field, the frame of a key beside it, or all fields together.
pub fn drag(random: &mut Random, held: &Held) -> Vec<Spoil> {
    let drag = &held.player.drag;
    let place = key_place(held, drag.track, drag.key);
    let one = match random.below(10) {
        0 => field(OPEN, u64::from(!drag.open)),
        1 => field(MOVED, u64::from(!drag.moved)),
        2 => field(DRAG_TRACK, number_around(random, held.sheet.targets.len())),
        3 => field(DRAG_KEY, number_around(random, key_count(held, drag.track))),
        4 | 5 => start_frame(random, held, place),
        6 | 7 => {
            let number = random.below(3);
            let bits = other_bits(random, drag.start[number]);
            field(START + number as u8, u64::from(bits))
        }
        8 => match place {
            Some(place) => return neighbour_of(random, held, place),
            None => return key(random, held),
        },
        _ => return anything(random, drag),
    };
    vec![one]
}

/// At, just below or just above the frame of a neighbour, where it starts to break
/// the order, or of the key itself.
fn start_frame(random: &mut Random, held: &Held, place: Option<usize>) -> Spoil {
    let Some(place) = place else {
        return field(START, u64::from(NAN));
    };
    let last = held.keys[0].len() - 1;
    let index = random.pick(&[place.saturating_sub(1), place, (place + 1).min(last)]);
    let frame = held.keys[0][index];
    let frame = random.pick(&[frame, frame.next_up(), frame.next_down()]);
    field(START, u64::from(bits_of(frame)))
}

/// Every field but whether one is open.
fn anything(random: &mut Random, drag: &Drag) -> Vec<Spoil> {
    let places = [DRAG_TRACK, DRAG_KEY].map(|f| field(f, random.pick(&[0, 1, 255, 65_535])));
    let start = (0..3).map(|i| {
        let bits = other_bits(random, drag.start[i]);
        field(START + i as u8, u64::from(bits))
    });
    let mut all: Vec<Spoil> = start.chain(places).collect();
    all.push(field(MOVED, random.below(2) as u64));
    all
}
