//! A random list of calls, made as it goes: each step is drawn on the state that
//! the earlier ones left. The plain machine goes beside as long as nothing that
//! it has no part in was changed by a spoil.

use super::held::Held;
use super::machine::Machine;
use super::some::{self, Mode};
use super::spoil::{self, Spoil};
use super::{Answer, Call};
use crate::format::book::Book;
use crate::format::sheet::Sheet;
use crate::random::Random;

/// Steps that a list still has once the plain machine is left behind.
const AFTER: usize = 8;

/// The sheet is saved before one step in so many, and in a spoiled state.
const SAVES: usize = 24;
const SPOILED_SAVES: usize = 4;

pub struct Walk {
    pub held: Held,
    machine: Option<Machine>,
    random: Random,
    /// Where saves come. They move nothing, so the other steps are as without them.
    saves: Random,
    mode: Mode,
    /// Steps left of the mode, and of the list.
    turns: usize,
    left: usize,
    /// What takes the standing spoils back, the last one first.
    back: Vec<Spoil>,
    /// Spoils that are still to be made.
    due: Vec<Spoil>,
    /// Whether states are spoiled.
    spoils: bool,
}

/// A step, with the answer where it is a call.
#[derive(Debug)]
pub enum Step {
    Called(Call, Answer),
    Spoiled(Spoil),
}

impl Walk {
    /// The list that a seed gives: one in eight is long enough to fill the
    /// journal.
    pub fn of_seed(seed: u64) -> Self {
        let mut random = Random::new(seed);
        let (sheet, book) = some::pair(&mut random);
        let most = random.pick(&[90, 90, 90, 90, 90, 90, 90, 900]);
        let steps = 1 + random.below(most);
        Self::new(random, &sheet, &book, steps)
    }

    pub fn new(random: Random, sheet: &Sheet, book: &Book, steps: usize) -> Self {
        Self {
            held: Held::new(sheet, book),
            machine: Some(Machine::new(sheet)),
            saves: random.beside(),
            random,
            mode: Mode::Mixed,
            turns: 2,
            left: steps,
            back: Vec::new(),
            due: Vec::new(),
            spoils: true,
        }
    }

    /// The same with calls alone, which a list in text can say.
    pub fn without_spoils(self) -> Self {
        Self {
            spoils: false,
            ..self
        }
    }

    /// Whether the plain machine is still beside.
    pub fn is_plain(&self) -> bool {
        self.machine.is_some()
    }

    /// Whether the keys come from the loaded ones by the list's calls alone, and no
    /// edit of them stands or is made by a drag.
    pub fn is_unedited(&self) -> bool {
        let own = self.back.iter().all(Spoil::is_plain);
        own && self.machine.as_ref().is_some_and(Machine::is_unedited)
    }

    /// The next step; nothing once the list has its length and stands unspoiled.
    pub fn step(&mut self) -> Option<Step> {
        if let Some(spoil) = self.due.pop() {
            self.spoil_for(&spoil);
            return Some(Step::Spoiled(spoil));
        }
        if self.saves_now() {
            let call = some::save(&mut self.saves);
            return Some(self.call(call));
        }
        if self.turns == 0 || self.left == 0 {
            if let Some(spoil) = self.back.pop() {
                self.spoil(&spoil);
                return Some(Step::Spoiled(spoil));
            }
            if self.left == 0 {
                return None;
            }
            (self.mode, self.turns) = some::mode(&mut self.random, &self.held);
            if self.mode == Mode::Spoiled && !self.spoils {
                self.mode = Mode::Mixed;
            }
        }
        self.turns -= 1;
        self.left -= 1;
        if self.mode == Mode::Spoiled && self.back.is_empty() {
            self.due = spoil::some::any(&mut self.random, &self.held);
            return self.step();
        }
        let call = some::call(&mut self.random, &self.held, self.mode);
        Some(self.call(call))
    }

    /// Whether a save comes next. The list has its length without them.
    fn saves_now(&mut self) -> bool {
        let once_in = if self.back.is_empty() {
            SAVES
        } else {
            SPOILED_SAVES
        };
        self.left > 0 && self.saves.once_in(once_in)
    }

    /// Makes a spoil, and gives the one that takes it back.
    pub fn spoil(&mut self, spoil: &Spoil) -> Spoil {
        let back = spoil.make(&mut self.held);
        if let Some(machine) = &mut self.machine {
            machine.view = self.held.player.view();
        }
        back
    }

    /// The same, and keeps it until it is taken back.
    fn spoil_for(&mut self, spoil: &Spoil) {
        let back = self.spoil(spoil);
        self.back.push(back);
    }

    /// Makes a call.
    pub fn call(&mut self, call: Call) -> Step {
        let answer = self.held.step(&call);
        self.beside(&call, &answer);
        Step::Called(call, answer)
    }

    /// The plain machine's step, held against the player's.
    fn beside(&mut self, call: &Call, answer: &Answer) {
        let Some(machine) = &mut self.machine else {
            return;
        };
        if !self.back.iter().all(Spoil::is_plain) {
            // A spoiled player or key array is not the machine's: a declined
            // call leaves both, and an accepted play, pose or tick moves both.
            if answer.refusal == 0 && call.edits() {
                self.machine = None;
                self.left = self.left.min(AFTER);
            } else if answer.refusal == 0 && call.shows() {
                assert_eq!(machine.step(call, &self.held.book), *answer, "{call:?}");
            }
            return;
        }
        if !self.back.is_empty() && answer.refusal == 5 {
            return; // a view out of range
        }
        assert_eq!(machine.step(call, &self.held.book), *answer, "{call:?}");
        assert!(machine.is_carried_by(&self.held.player), "{call:?}");
        if call.edits() {
            assert_eq!(machine.keys(), self.held.key_bits(), "{call:?}");
        }
    }
}
