//! Random readings: rows 7 and 13 decline some.

use super::animation;
use crate::calls::Call;
use crate::calls::held::Held;
use crate::random::Random;
use crate::readings::whole::{MATERIAL_CHANNELS, PANE_CHANNELS};

/// A reading of any kind.
pub fn reading(random: &mut Random, held: &Held) -> Call {
    let (panes, materials) = match &held.book.good {
        Some(book) => (book.rows.panes.len(), book.rows.materials.len()),
        None => (1, 1),
    };
    let (pane, material) = (below_or_so(random, panes), below_or_so(random, materials));
    let layer = below_or_so(random, 3);
    match random.below(12) {
        0..3 => pane_channel(random, held, pane),
        3..6 => material_channel(random, held, panes, material),
        6 => Call::ReadAll {
            short: seldom(random, 2),
        },
        7 => Call::ResolvePane(pane),
        8 => Call::ResolveSrt { material, layer },
        9 => Call::TextureName {
            material,
            slot: layer,
        },
        10 => Call::Cascade {
            short: seldom(random, 3),
        },
        _ => Call::NextName(animation(random, held)),
    }
}

fn pane_channel(random: &mut Random, held: &Held, pane: u16) -> Call {
    let channel = below_or_so(random, PANE_CHANNELS);
    match marked(random, held) {
        Some(at) if at < PANE_CHANNELS * held.book.panes() => Call::ReadPane {
            pane: (at / PANE_CHANNELS) as u16,
            channel: (at % PANE_CHANNELS) as u16,
        },
        _ => Call::ReadPane { pane, channel },
    }
}

fn material_channel(random: &mut Random, held: &Held, panes: usize, material: u16) -> Call {
    let channel = below_or_so(random, MATERIAL_CHANNELS);
    match marked(random, held) {
        Some(at) if at >= PANE_CHANNELS * panes => {
            let at = at - PANE_CHANNELS * panes;
            Call::ReadMaterial {
                material: (at / MATERIAL_CHANNELS) as u16,
                channel: (at % MATERIAL_CHANNELS) as u16,
            }
        }
        _ => Call::ReadMaterial { material, channel },
    }
}

/// Now and then a channel that is overridden, if one is.
fn marked(random: &mut Random, held: &Held) -> Option<usize> {
    if random.once_in(2) {
        return None;
    }
    let marks = held.marks()?;
    let marked: Vec<usize> = (0..marks.len()).filter(|&i| marks[i] == 1).collect();
    (!marked.is_empty()).then(|| random.pick(&marked))
}

/// Below `n`, and now and then `n`, a little more, or far out.
fn below_or_so(random: &mut Random, n: usize) -> u16 {
    if n == 0 || random.once_in(16) {
        return random.pick(&[n, n + 1, 255, 65_535]) as u16;
    }
    random.below(n) as u16
}

/// 0, and now and then one of 1 to `n`.
pub fn seldom(random: &mut Random, n: usize) -> u8 {
    if random.once_in(5) {
        1 + random.below(n) as u8
    } else {
        0
    }
}
