//! `readings COUNT SEED`: what the Rust's `evaluate`, both resolves and cascade
//! give of an animation at a frame beside the proved readings, on COUNT random
//! sheets, books and frames: every channel by itself where it is overridden and
//! some where it isn't, all channels, every pane, layer and texture name, and
//! the cascade. For each sheet and book the last of some rows of a table of frames
//! is compared too, and some must not be as the first; a COUNT below 1,000 may be
//! too small for that.

use cases::calls::held::Held;
use cases::calls::{Call, NONE};
use cases::format::Name;
use cases::format::sheet::Sheet;
use cases::random::Random;
use cases::readings::whole::{MATERIAL_CHANNELS, PANE_CHANNELS};
use cases::readings::{Case, some, whole};
use cases::sheets::good::{MATERIAL_CODES, PANE_CODES};
use compare::arguments::Arguments;
use compare::last_rows::LastRows;
use compare::ours::Ours;
use compare::probe::readings::read_all;
use compare::tally::Tally;
use std::collections::HashSet;

/// Questions asked of each sheet and book.
const QUESTIONS: usize = 8;

/// Channels asked for by themselves that may not be overridden.
const OTHERS: usize = 4;

#[derive(Default)]
struct Tallies {
    without_player: Tally,
    last_rows: LastRows,
    whole: Tally,
    single: Tally,
    panes: Tally,
    srts: Tally,
    names: Tally,
    cascades: Tally,
    met: Met,
}

/// What the sheets held: families with their raw numbers and layers; contents
/// whose name is one of the book's but for the last byte; contents of an
/// animation that have one name.
#[derive(Default)]
struct Met {
    raws: HashSet<(u32, u8)>,
    layers: HashSet<(u32, u8)>,
    near: u64,
    repeated: u64,
}

fn main() {
    let Arguments { count, seed } = Arguments::read(1_000_000);
    let mut random = Random::new(seed);
    let mut tallies = Tallies::default();
    while tallies.whole.compared < count {
        let case = some::case(&mut random);
        tallies.met.add(&case);
        tallies.last_rows.add(&mut random.beside(), &case);
        tallies.questions(&mut random, case);
    }
    tallies.report(seed);
}

impl Tallies {
    fn questions(&mut self, random: &mut Random, mut case: Case) {
        let mut held = Held::new(&case.sheet, &case.book);
        let mut ours = Ours::load(&held.sheet_bytes);
        for _ in 0..QUESTIONS {
            case.active = some::active(random, &case.sheet);
            let rust = whole::reading(&case.book, &whole::state(&case));
            let probe = read_all(&case);
            self.without_player
                .add(Some(rust), probe, || format!("{case:?}"));
            pose(&mut held, &mut ours, case.active);
            for call in calls(random, &held, &case) {
                let plain = held.step(&call);
                let given = ours.step(&call, &held);
                self.of(&call)
                    .add(plain, given, || format!("{case:?}\n{call:?}"));
            }
        }
    }

    fn of(&mut self, call: &Call) -> &mut Tally {
        match call {
            Call::ReadAll { .. } => &mut self.whole,
            Call::ResolvePane(_) => &mut self.panes,
            Call::ResolveSrt { .. } => &mut self.srts,
            Call::TextureName { .. } => &mut self.names,
            Call::Cascade { .. } => &mut self.cascades,
            _ => &mut self.single,
        }
    }

    fn report(&self, seed: u64) {
        let families = PANE_CODES.len() + MATERIAL_CODES.len();
        println!(
            "of {families} families with 256 raw numbers each {} pairs, with 256 layers each {}",
            self.met.raws.len(),
            self.met.layers.len()
        );
        println!(
            "{} contents with a name of the book but for the last byte, {} with the name of an earlier one",
            self.met.near, self.met.repeated
        );
        let all = [
            (&self.without_player, "whole readings without a player"),
            (&self.whole, "whole readings"),
            (&self.single, "single readings"),
            (&self.panes, "panes resolved, with visible and alpha"),
            (&self.srts, "SRTs resolved"),
            (&self.names, "texture names"),
            (&self.cascades, "cascades"),
        ];
        for (tally, what) in all {
            tally.report(&format!("{what}, seed {seed}"));
        }
        self.last_rows.report(&format!("seed {seed}"));
    }
}

impl Met {
    fn add(&mut self, case: &Case) {
        let labels = case.book.panes.iter().map(|pane| pane.label);
        let names: Vec<Name> = labels
            .chain(case.book.materials.iter().map(|m| m.name))
            .collect();
        let contents = &case.sheet.contents;
        for (row, content) in contents.iter().enumerate() {
            let near =
                |name: &Name| name[..23] == content.name[..23] && name[23] != content.name[23];
            self.near += u64::from(names.iter().any(near));
            let mut earlier = contents[..row].iter();
            let repeats =
                earlier.any(|e| (e.animation, e.name) == (content.animation, content.name));
            self.repeated += u64::from(repeats);
        }
        self.add_targets(&case.sheet);
    }

    fn add_targets(&mut self, sheet: &Sheet) {
        for target in &sheet.targets {
            let is_family =
                PANE_CODES.contains(&&target.code) || MATERIAL_CODES.contains(&&target.code);
            if is_family {
                let code = u32::from_le_bytes(target.code);
                self.raws.insert((code, target.raw));
                self.layers.insert((code, target.layer));
            }
        }
    }
}

/// Holds both players at the animation and the frame, or at nothing.
fn pose(held: &mut Held, ours: &mut Ours, active: Option<(usize, f32)>) {
    let (animation, frame) = match active {
        Some((animation, frame)) => (animation as u16, frame),
        None => (NONE, 0.0),
    };
    let call = Call::Pose(animation, frame);
    assert_eq!(held.step(&call), ours.step(&call, held));
    assert!(ours.is(held));
}

fn calls(random: &mut Random, held: &Held, case: &Case) -> Vec<Call> {
    let (panes, materials) = (case.book.panes.len(), case.book.materials.len());
    let mut calls = vec![Call::ReadAll { short: 0 }, Call::Cascade { short: 0 }];
    calls.extend((0..panes).map(|pane| Call::ResolvePane(pane as u16)));
    for row in 0..3 * materials {
        let (material, layer) = ((row / 3) as u16, (row % 3) as u16);
        calls.push(Call::ResolveSrt { material, layer });
        let slot = layer;
        calls.push(Call::TextureName { material, slot });
    }
    // A material has three slots; with none, row 0 is no material either.
    calls.extend([3, 4, 65_535].map(|slot| Call::TextureName { material: 0, slot }));
    let marks = held.marks().expect("nothing is refused");
    let marked = (0..marks.len()).filter(|&channel| marks[channel] == 1);
    calls.extend(marked.map(|channel| single(panes, channel)));
    calls.extend((0..OTHERS).map(|_| single(panes, random.below(marks.len()))));
    calls
}

/// One of the book's channels, panes first.
fn single(panes: usize, channel: usize) -> Call {
    match channel.checked_sub(PANE_CHANNELS * panes) {
        None => Call::ReadPane {
            pane: (channel / PANE_CHANNELS) as u16,
            channel: (channel % PANE_CHANNELS) as u16,
        },
        Some(rest) => Call::ReadMaterial {
            material: (rest / MATERIAL_CHANNELS) as u16,
            channel: (rest % MATERIAL_CHANNELS) as u16,
        },
    }
}
