//! The lists of calls that the program `cli_lists` replays, each with a sheet and
//! a book of its own and a freshly loaded player. What is answered is the
//! published text's and the plain machine's, which `Walk` holds against each
//! other after each call.

mod lines;
#[cfg(test)]
mod tests;

use super::held::Held;
use super::player::{Drag, ROWS};
use super::some::{self, Mode};
use super::text::Line;
use super::walk::{Step, Walk};
use super::{Call, Request, Told, text};
use crate::format::book::Book;
use crate::format::sheet::{Sheet, Target};
use crate::random::Random;
use crate::readings::whole::PANE_CHANNELS;
use lines::Lines;

/// Lists of random calls, and the steps of each.
const LISTS: u64 = 12;
const STEPS: usize = 240;

/// Edits of the long list: more than a journal holds.
const MANY: u64 = ROWS as u64 + 12;

/// The most keys of a list's sheet.
const MOST_KEYS: usize = 24;

/// Keys, channels and cascade are told, and the sheet is saved, after so many
/// calls that may move the player or its keys.
const EVERY: usize = 16;

/// A list, and what it is answered.
pub struct List {
    pub sheet: Vec<u8>,
    pub book: Vec<u8>,
    pub calls: Lines,
    pub answers: Vec<u8>,
    walk: Walk,
    /// How lines are written; it takes no number from those that draw the calls.
    forms: Random,
    moves: usize,
    /// As it is before the next call.
    drag: Drag,
}

pub fn lists(seed: u64) -> impl Iterator<Item = List> {
    let random = (1..=LISTS).map(move |i| random_list(seed + i));
    [long_list(seed)].into_iter().chain(random)
}

impl List {
    fn new(seed: u64, walk: Walk, calls: Lines) -> Self {
        Self {
            sheet: walk.held.sheet_bytes.clone(),
            book: walk.held.book.bytes.clone(),
            calls,
            answers: Vec::new(),
            walk: walk.without_spoils(),
            forms: Random::new(seed).beside(),
            moves: 0,
            drag: Drag::default(),
        }
    }

    fn call(&mut self, call: Call) -> u8 {
        let step = self.walk.call(call);
        self.keep(&step)
    }

    /// Writes a call and its answer, and what it may have moved; gives its refusal.
    /// Where an undo took the last standing edit, or an edit or a drop left none and is
    /// unchanged, the sheet is saved as it was.
    fn keep(&mut self, step: &Step) -> u8 {
        let Step::Called(call, answer) = step else {
            panic!("{step:?} is no call");
        };
        let held = &self.walk.held;
        if let Some(words) = text::words(call, held, &mut self.forms) {
            let number = self.calls.write(&words, &mut self.forms);
            let line = Line {
                number,
                words: &words,
            };
            let told = text::answer(&line, call, answer, held, &self.drag);
            self.answers.extend(told);
        }
        self.drag = self.walk.held.player.drag;
        let refusal = answer.refusal;
        if call.edits() || call.shows() {
            self.ask("player", text::player);
            self.moves += 1;
            if self.moves.is_multiple_of(EVERY) {
                self.show();
            }
        }
        let undone = matches!(call, Call::Undo) && refusal == 0;
        let unchanged = answer.told == Told::Edited { unchanged: true };
        if (undone || unchanged) && self.walk.is_unedited() {
            self.call(Call::Save { short: 0 });
        }
        refusal
    }

    /// What the moves so far came to.
    fn show(&mut self) {
        self.ask("keys", text::keys);
        self.call(Call::ReadAll { short: 0 });
        self.call(Call::Cascade { short: 0 });
        self.call(Call::Save { short: 0 });
    }

    fn ask(&mut self, words: &str, answer: fn(&Line, &Held) -> Vec<u8>) {
        let number = self.calls.write(words, &mut self.forms);
        let told = answer(&Line { number, words }, &self.walk.held);
        self.answers.extend(told);
    }

    /// Edits and an opening while nothing is active, which random lists seldom meet.
    fn edit_nothing(&mut self) {
        let (track, key) = (0, 0);
        let [frame, value] = [0.0, 0.0];
        for request in [Request::Key { frame, value }, Request::Slope(value)] {
            self.call(Call::Edit {
                track,
                key,
                request,
            });
        }
        self.call(Call::OpenDrag { track, key });
    }

    /// Of each key of a curve, an edit is made and undone, and the key opened and
    /// dropped where it is: the player then shows that there is still one to redo.
    fn drop_each_key(&mut self) {
        let sheet = &self.walk.held.sheet;
        let long = |target: &Target| target.key_count > 2;
        let track = sheet.targets.iter().position(long).expect("a long curve");
        let target = &sheet.targets[track];
        let (animation, count) = (some::animation_of(sheet, target), target.key_count);
        let track = track as u16;
        self.call(Call::Pose(animation, 0.0));
        for key in 0..count {
            let request = Request::Key {
                frame: f32::MAX,
                value: 7.0,
            };
            self.call(Call::Edit {
                track,
                key,
                request,
            });
            self.call(Call::Undo);
            self.call(Call::OpenDrag { track, key });
            self.call(Call::DropDrag);
        }
    }

    /// Each animation past its last frame, where it ends unless it loops.
    fn play_each(&mut self) {
        for animation in 0..self.walk.held.sheet.animations.len() as u16 {
            self.call(Call::Play(animation));
            self.call(Call::Tick {
                dt: 65_536.0,
                fps: 1.0,
            });
        }
    }

    fn finish(mut self) -> Self {
        self.show();
        self
    }
}

/// A sheet and a book with some channels of panes and of materials to read, a
/// curve to edit in its middle, and no more keys than are told in a few lines.
fn menu(random: &mut Random) -> (Sheet, Book) {
    loop {
        let (sheet, book) = some::pair(random);
        let long = sheet.targets.iter().any(|target| target.key_count > 2);
        let [of_panes, of_materials] = channels(&sheet, &book);
        if long && sheet.frames.len() <= MOST_KEYS && of_panes > 1 && of_materials > 2 {
            return (sheet, book);
        }
    }
}

/// How many channels of panes and of materials the animations override.
fn channels(sheet: &Sheet, book: &Book) -> [usize; 2] {
    let mut held = Held::new(sheet, book);
    let mut counts = [0, 0];
    for animation in 0..sheet.animations.len() as u16 {
        held.step(&Call::Pose(animation, 0.0));
        let marks = held.marks().expect("a whole reading");
        let (panes, materials) = marks.split_at(PANE_CHANNELS * book.panes.len());
        for (count, marks) in counts.iter_mut().zip([panes, materials]) {
            *count += marks.iter().filter(|&&mark| mark == 1).count();
        }
    }
    counts
}

fn random_list(seed: u64) -> List {
    let mut random = Random::new(seed);
    let (sheet, book) = menu(&mut random);
    let walk = Walk::new(random, &sheet, &book, STEPS);
    let mut list = List::new(seed, walk, Lines::default());
    while let Some(step) = list.walk.step() {
        list.keep(&step);
    }
    list.play_each();
    list.finish()
}

/// Edits of nothing; keys that are dropped where they are; more edits than a journal
/// holds; undo until it is declined, and what stands then is saved; redo until it is,
/// and a drag over the full journal; a few undone again, and an edit, after which
/// nothing can be made again. Its text begins with a byte order mark.
fn long_list(seed: u64) -> List {
    let mut random = Random::new(seed);
    let (sheet, book) = menu(&mut random);
    let walk = Walk::new(Random::new(0), &sheet, &book, 0);
    let mut list = List::new(seed, walk, Lines::marked());
    let mut draw = |list: &mut List, mode: Mode| {
        let call = some::call(&mut random, &list.walk.held, mode);
        list.call(call)
    };
    list.edit_nothing();
    list.drop_each_key();
    while list.walk.held.player.standing < MANY {
        draw(&mut list, Mode::Edits);
    }
    while list.call(Call::Undo) == 0 {}
    list.call(Call::Save { short: 0 });
    (0..20).for_each(|_| {
        draw(&mut list, Mode::Reads);
    });
    while list.call(Call::Redo) == 0 {}
    let standing = list.walk.held.player.standing;
    while list.walk.held.player.standing == standing {
        draw(&mut list, Mode::Drags);
    }
    (0..9).for_each(|_| {
        list.call(Call::Undo);
    });
    let accepted = list.walk.held.player.accepted;
    while list.walk.held.player.accepted == accepted {
        draw(&mut list, Mode::Edits);
    }
    list.call(Call::Redo);
    (0..20).for_each(|_| {
        draw(&mut list, Mode::Reads);
    });
    list.finish()
}
