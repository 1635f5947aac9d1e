//! Runs of lists, and what they came to: how many calls of each kind, how many
//! of each refusal, how many next names, how many sheets saved as they were and
//! otherwise, how many calls in each state of a drag, how many edits, drags and drops
//! unchanged, how many lists with more edits than a journal holds.

use crate::ours::Ours;
use crate::saves::Saves;
use cases::calls::drags::{self, Drags};
use cases::calls::ends::{self, NextNames};
use cases::calls::held::Held;
use cases::calls::player::ROWS;
use cases::calls::short;
use cases::calls::unchanged::Unchanged;
use cases::calls::walk::{Step, Walk};
use cases::calls::{Answer, Call, NONE, Told};
use cases::format::book::Book;
use cases::format::sheet::Sheet;
use cases::random::Random;
use cases::sheets::damage;

/// By a call's code.
const KINDS: [&str; 20] = [
    "play",
    "pose",
    "tick",
    "key edit",
    "slope edit",
    "undo",
    "redo",
    "pane's channel",
    "material's channel",
    "whole reading",
    "pane resolved",
    "SRT resolved",
    "texture name",
    "cascade",
    "next name",
    "save",
    "open",
    "drag",
    "drop",
    "abandon",
];

const REFUSALS: usize = 16;

#[derive(Default)]
pub struct Counts {
    pub lists: u64,
    pub calls: u64,
    spoils: u64,
    /// By kind and refusal.
    of_kind: [[u64; REFUSALS]; KINDS.len()],
    /// Next names that were the ones that the Rust's ticks returned, and ticks
    /// that ended without one as the Rust's did.
    next_names: NextNames,
    saves: Saves,
    drags: Drags,
    unchanged: Unchanged,
    /// Lists that passed 128 edits, and those whose plain machine was beside
    /// to the end.
    long: u64,
    plain: u64,
    pub differ: u64,
}

/// Where a list first differs: its seed, how many steps it had made, and what.
pub struct Difference {
    pub seed: u64,
    pub steps: usize,
    pub what: String,
}

impl Counts {
    /// Runs the list of a seed to its end, or to the first difference. `each` is
    /// told every step.
    pub fn run(&mut self, seed: u64, mut each: impl FnMut(&Step)) -> Option<Difference> {
        let mut walk = Walk::of_seed(seed);
        let mut ours = Ours::load(&walk.held.sheet_bytes);
        let mut difference = (!ours.is(&walk.held)).then(|| "loading".to_string());
        let mut steps = 0;
        while difference.is_none() {
            let Some(step) = walk.step() else { break };
            each(&step);
            steps += 1;
            difference = self.step(&step, &walk, &mut ours);
        }
        self.lists += 1;
        self.long += u64::from(walk.held.player.accepted > ROWS as u64);
        self.plain += u64::from(walk.is_plain());
        self.differ += u64::from(difference.is_some());
        difference.map(|what| Difference { seed, steps, what })
    }

    /// Every short list on each of the sheets, and the first difference.
    pub fn each_short_list(&mut self) -> Option<String> {
        ends::pairs().iter().find_map(|(sheet, book)| {
            (0..short::COUNT).find_map(|number| {
                let list = short::list(number);
                let what = self.list(sheet, book, &list)?;
                Some(format!("{:?}, {list:?}: {what}", sheet.animations))
            })
        })
    }

    /// Every short list over a drag in each of the cases, and the first difference.
    pub fn each_short_drag(&mut self) -> Option<String> {
        drags::cases().iter().find_map(|case| {
            (0..drags::COUNT).find_map(|number| {
                let list = case.list(number);
                let what = self.list(&case.sheet, &case.book, &list)?;
                Some(format!("{}, {list:?}: {what}", case.what))
            })
        })
    }

    /// Animations that end, with a next name of every length.
    pub fn each_end(&mut self) -> Option<String> {
        let (_, book) = damage::base_pair();
        ends::each().find_map(|(sheet, list)| {
            let what = self.list(&sheet, &book, &list)?;
            Some(format!("{:?}: {what}", sheet.animations))
        })
    }

    /// One list from a freshly loaded player.
    fn list(&mut self, sheet: &Sheet, book: &Book, list: &[Call]) -> Option<String> {
        let mut walk = Walk::new(Random::new(0), sheet, book, 0);
        let mut ours = Ours::load(&walk.held.sheet_bytes);
        list.iter().find_map(|&call| {
            let step = walk.call(call);
            self.step(&step, &walk, &mut ours)
        })
    }

    pub fn step(&mut self, step: &Step, walk: &Walk, ours: &mut Ours) -> Option<String> {
        match step {
            Step::Spoiled(spoil) => {
                self.spoils += 1;
                ours.spoil(spoil);
            }
            Step::Called(call, answer) => {
                return self.compare(call, answer, &walk.held, ours, walk.is_unedited());
            }
        }
        let same = ours.is(&walk.held);
        (!same).then(|| format!("player or keys after {step:?}"))
    }

    /// Makes a call that the plain player has made and answered: the answers,
    /// and then player and keys whole. `unedited`: no edit stands, and nothing but
    /// edits moved the keys.
    pub fn compare(
        &mut self,
        call: &Call,
        plain: &Answer,
        held: &Held,
        ours: &mut Ours,
        unedited: bool,
    ) -> Option<String> {
        self.calls += 1;
        self.of_kind[usize::from(call.code())][usize::from(plain.refusal)] += 1;
        self.drags.add(call, plain, &ours.drag());
        self.unchanged.add(call, plain, held.player.redo);
        let given = ours.step(call, held);
        if given != *plain {
            return Some(format!("{call:?}\n  plain {plain:?}\n  here  {given:?}"));
        }
        if let Told::Tick(tick) = &plain.told {
            self.next_names.add(tick);
        }
        if let Some(written) = plain.saved()
            && let Err(what) = self.saves.add(written, held, ours, unedited)
        {
            return Some(format!("{call:?}: {what}"));
        }
        if slot(call).is_some_and(|slot| ours.step(&slot, held).refusal != given.refusal) {
            return Some(format!("{call:?} has not the number of reading the slot"));
        }
        let same = ours.is(held);
        (!same).then(|| format!("player or keys after {call:?}"))
    }

    /// Whether some save came with all edits undone, and some gave another sheet.
    pub fn saved_both_ways(&self) -> bool {
        self.saves.both_ways()
    }

    /// Whether each call met each state of a drag.
    pub fn dragged_all_ways(&self) -> bool {
        self.drags.is_whole()
    }

    /// Whether edits, drags and drops, where there were any, came both unchanged and
    /// not, and something to redo was kept.
    pub fn edited_both_ways(&self) -> bool {
        self.unchanged.is_whole()
    }

    /// Whether some tick ended with a next name, and some without one.
    pub fn ended_both_ways(&self) -> bool {
        self.next_names.all() > 0 && self.next_names.without > 0
    }

    pub fn print_lists(&self) {
        let Self {
            lists,
            spoils,
            long,
            plain,
            ..
        } = self;
        println!("{lists} lists with {spoils} spoils");
        println!("{long} lists passed {ROWS} edits");
        println!("{plain} lists had the plain machine beside them to the end");
    }

    pub fn print_calls(&self) {
        for (name, counts) in KINDS.iter().zip(&self.of_kind) {
            let all: u64 = counts.iter().sum();
            println!("{name}: {all} calls, {}", told(counts));
        }
        let sums: [u64; REFUSALS] =
            std::array::from_fn(|n| self.of_kind.iter().map(|counts| counts[n]).sum());
        println!("all: {}", told(&sums));
        let NextNames {
            of_length,
            wide,
            without,
        } = &self.next_names;
        println!(
            "next names: {}, the Rust's own, by length {{{}}}, {wide} of them not ASCII; {without} ticks ended without one",
            self.next_names.all(),
            occurred(of_length, 0)
        );
        self.saves.print();
        let drags = self.drags.each();
        let drags: Vec<String> = drags.map(|(what, count)| format!("{what} {count}")).into();
        println!("drags: {}", drags.join(", "));
        println!("unchanged: {}", self.unchanged);
    }
}

/// Document 01: a texture name's number "comes from reading the slot". A slot
/// from 3 up is no channel.
fn slot(call: &Call) -> Option<Call> {
    const FIRST: u16 = 15;
    match *call {
        Call::TextureName { material, slot } => Some(Call::ReadMaterial {
            material,
            channel: if slot < 3 { FIRST + slot } else { NONE },
        }),
        _ => None,
    }
}

/// How many calls were accepted, and how many of each refusal there were.
fn told(counts: &[u64; REFUSALS]) -> String {
    let refused = occurred(counts, 1);
    format!("{} accepted, refused by {{{refused}}}", counts[0])
}

/// The numbers from `first` on that occurred, each with its count.
fn occurred(counts: &[u64], first: usize) -> String {
    let met = (first..counts.len()).filter(|&n| counts[n] > 0);
    let met: Vec<String> = met.map(|n| format!("{n}: {}", counts[n])).collect();
    met.join(", ")
}
