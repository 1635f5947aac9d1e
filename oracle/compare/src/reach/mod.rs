//! Edits made by the proved library, and what they reach: all that can be read before
//! and after, beside the marks of the proved call.

mod command;
mod editor;
mod marks;
mod menu;
mod met;
mod pair;

use cases::format::load::Arrays;
use cases::random::Random;
use editor::Editor;
use menu::{Everything, Menu};
use met::{Counts, Met};
use pair::Pair;
use std::rc::Rc;

/// Steps of a list at most.
const STEPS: usize = 6;

/// The Rust reads one in so many pairs too, and a call is declined after one in so many.
const RUST: usize = 16;
const DECLINED: usize = 4;

/// Lists on one in so many menus are given to the command too.
const COMMAND: u64 = 400;

#[derive(Default)]
pub struct Run {
    pub edits: u64,
    pub menus: u64,
    differ: u64,
    counts: Counts,
    smallest: Option<Difference>,
}

/// A menu with which something is not as it must be.
struct Difference {
    size: usize,
    what: String,
}

/// Keys, and everything that is read with them.
#[derive(Clone)]
struct Stage {
    keys: Arrays,
    read: Rc<Everything>,
}

impl Run {
    /// A random menu and a random list of edits of it.
    pub fn list(&mut self, seed: u64) {
        let mut random = Random::new(seed);
        let menu = Menu::some(&mut random);
        self.menus += 1;
        let mut told = Vec::new();
        if let Err(what) = self.edit(&mut random, &menu, &mut told) {
            self.differ += 1;
            let size = menu.sheet_bytes.len() + menu.book_bytes.len();
            if self.smallest.as_ref().is_none_or(|d| size < d.size) {
                let (sheet, book) = (&menu.sheet, &menu.book);
                let what =
                    format!("{what}\nseed {seed}, edits {told:?}\nsheet {sheet:?}\nbook {book:?}");
                self.smallest = Some(Difference { size, what });
            }
        }
    }

    fn edit(
        &mut self,
        random: &mut Random,
        menu: &Menu,
        told: &mut Vec<cases::calls::Call>,
    ) -> Result<(), String> {
        let mut editor = Editor::load(menu);
        let first = editor.stage(menu, None);
        let mut last = first.clone();
        let mut made = 0;
        for _ in 0..1 + random.below(STEPS) {
            let Some((call, kind)) = editor.step(random, menu) else {
                continue;
            };
            told.push(call);
            let Some(kind) = kind else {
                continue;
            };
            made += 1;
            self.edits += 1;
            self.counts.add(kind, 1);
            let next = editor.stage(menu, Some(&last));
            self.compare(random, menu, &last, &next)?;
            last = next;
        }
        if made > 1 {
            self.counts.add(Met::List, 1);
            self.compare(random, menu, &first, &last)?;
        }
        if self.menus % COMMAND == 1 {
            self.counts.add(Met::Command, 1);
            command::compare(&pair(menu, &first, &last))?;
        }
        Ok(())
    }

    fn compare(
        &mut self,
        random: &mut Random,
        menu: &Menu,
        first: &Stage,
        last: &Stage,
    ) -> Result<(), String> {
        let pair = pair(menu, first, last);
        let counts = &mut self.counts;
        pair.check(counts)?;
        pair.count(counts);
        if let [place] = pair.differing()[..] {
            pair.outside(random, place, counts)?;
        }
        if random.once_in(RUST) {
            pair.rust(counts)?;
        }
        if random.once_in(DECLINED) {
            let (due, refusal, left) = marks::declined(random, menu, &first.keys, &last.keys);
            counts.add(Met::Declined, 1);
            if due != refusal || !left {
                return Err(format!("declined by {refusal}, not {due}, or not left"));
            }
        }
        Ok(())
    }

    /// Tells what was met. A run with a difference fails, and one that never met something.
    pub fn report(&self, seed: u64) {
        println!("{} edits on {} menus, seed {seed}:", self.edits, self.menus);
        self.counts.print();
        if let Some(Difference { what, .. }) = &self.smallest {
            println!("{} menus differ; the smallest: {what}", self.differ);
            std::process::exit(1);
        }
        let missing = self.counts.missing();
        if !missing.is_empty() {
            println!("never met: {}", missing.join(", "));
            std::process::exit(1);
        }
        println!("none differ");
    }
}

fn pair<'a>(menu: &'a Menu, first: &'a Stage, last: &'a Stage) -> Pair<'a> {
    Pair {
        menu,
        before: &first.keys,
        after: &last.keys,
        old: &first.read,
        new: &last.read,
    }
}
