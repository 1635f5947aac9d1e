//! Sheets and books in a sample. A record is bytes and changes of them: how many
//! bytes, how many changes (u16 each), the bytes, and for each change how long
//! the changed bytes are, where four of them are replaced (u16 each), those
//! four, and the refusal that they earn (u8), zero u8.

use super::damage::{self, Changed, mutated};
use super::{books, good};
use crate::format::{book_refusal, loading_refusal};
use crate::random::Random;
use crate::sample::{BOOKS, Files, Record, SHEETS};
use std::slice;

/// How many bytes a change replaces.
const PATCH: usize = 4;

struct Change {
    length: usize,
    place: usize,
    patch: [u8; PATCH],
}

impl Change {
    /// The change from `base` to `bytes`, if it is one: other bytes in one place
    /// alone, or a piece cut from the end.
    fn between(base: &[u8], bytes: &[u8]) -> Option<Self> {
        let place = first_difference(base, bytes).min(base.len() - PATCH);
        let mut change = Self {
            length: bytes.len(),
            place,
            patch: *base[place..].first_chunk().unwrap(),
        };
        for (i, byte) in bytes.iter().skip(place).take(PATCH).enumerate() {
            change.patch[i] = *byte;
        }
        (bytes.len() <= base.len() && change.made(base) == bytes).then_some(change)
    }

    fn made(&self, base: &[u8]) -> Vec<u8> {
        let mut bytes = base.to_vec();
        bytes[self.place..self.place + PATCH].copy_from_slice(&self.patch);
        bytes.truncate(self.length);
        bytes
    }
}

fn first_difference(a: &[u8], b: &[u8]) -> usize {
    a.iter().zip(b).take_while(|(x, y)| x == y).count()
}

/// Files of one family, whose refusals the plain reader tells.
struct Told {
    files: Files,
    refusal: fn(&[u8]) -> u8,
    /// Whether every fifth refusal is told wrong.
    wrong: bool,
}

impl Told {
    fn sheets() -> Self {
        Self {
            files: Files::new(SHEETS),
            refusal: loading_refusal,
            wrong: false,
        }
    }

    fn books() -> Self {
        Self {
            files: Files::new(BOOKS),
            refusal: book_refusal,
            wrong: false,
        }
    }

    /// A record of `base`, with a byte more at its end so that a change can be
    /// longer, and its changes, of which each is a case.
    fn put(&mut self, base: &[u8], changed: &[Vec<u8>]) {
        let base = [base, &[0]].concat();
        let mut record = Record::default();
        record.u16(base.len() as u16);
        record.u16(changed.len() as u16);
        record.bytes(&base);
        for (i, bytes) in changed.iter().enumerate() {
            let change = Change::between(&base, bytes).expect("a change");
            record.u16(change.length as u16);
            record.u16(change.place as u16);
            record.bytes(&change.patch);
            let refusal = (self.refusal)(bytes);
            record.u8(if self.wrong && i % 5 == 0 {
                refusal ^ 1
            } else {
                refusal
            });
            record.u8(0);
            record.case();
        }
        self.files.put(record);
    }

    /// Each rule broken alone in a base: changes of it where they are, and bases
    /// of their own where too much is changed.
    fn put_rules(&mut self, base: &[u8], rules: &[Changed]) {
        let longer = [base, &[0]].concat();
        let bytes = rules.iter().map(|rule| rule.bytes.clone());
        let (changes, others): (Vec<_>, Vec<_>) =
            bytes.partition(|bytes| Change::between(&longer, bytes).is_some());
        self.put(base, &changes);
        others
            .iter()
            .for_each(|other| self.put(other, slice::from_ref(other)));
    }
}

/// Each rule of the sheet and of its keys broken alone; then the longest sheet,
/// and small ones, with random mutations.
pub fn sheets(seed: u64) -> Vec<Vec<u8>> {
    let mut random = Random::new(seed);
    let mut told = Told::sheets();
    let rules: Vec<Changed> = damage::sheet::all()
        .into_iter()
        .chain(damage::keys::all())
        .collect();
    told.put_rules(&damage::sheet::base().write(), &rules);

    let book = books::book(&mut random, books::FULL);
    let full = good::sheet(&mut random, good::FULL, &book).write();
    told.put(&full, &single_mutations(&mut random, &full, 1200));
    for _ in 0..20 {
        let size = small(&mut random);
        let sheet = good::sheet(&mut random, size, &book).write();
        told.put(&sheet, &single_mutations(&mut random, &sheet, 30));
    }
    told.files.finish()
}

/// The same of books.
pub fn books(seed: u64) -> Vec<Vec<u8>> {
    let mut random = Random::new(seed);
    let mut told = Told::books();
    told.put_rules(&damage::book::base().write(), &damage::book::all());

    let full = books::book(&mut random, books::FULL).write();
    told.put(&full, &single_mutations(&mut random, &full, 1200));
    for _ in 0..20 {
        let size = books::Size {
            panes: 1 + random.below(4),
            materials: random.below(3),
        };
        let book = books::book(&mut random, size).write();
        told.put(&book, &single_mutations(&mut random, &book, 30));
    }
    told.files.finish()
}

fn small(random: &mut Random) -> good::Size {
    loop {
        let size = good::size(random);
        if size.keys < 40 {
            return size;
        }
    }
}

/// A few sheets and books whose refusals are told wrong in every fifth case.
pub fn wrong_sheets(seed: u64) -> Vec<Vec<u8>> {
    let mut told = Told::sheets();
    told.wrong = true;
    let sheet = damage::sheet::base().write();
    let mut random = Random::new(seed);
    told.put(&sheet, &single_mutations(&mut random, &sheet, 50));
    told.files.finish()
}

pub fn wrong_books(seed: u64) -> Vec<Vec<u8>> {
    let mut told = Told::books();
    told.wrong = true;
    let book = damage::book::base().write();
    let mut random = Random::new(seed);
    told.put(&book, &single_mutations(&mut random, &book, 50));
    told.files.finish()
}

/// The bytes as they are, and mutations that are changes of them.
fn single_mutations(random: &mut Random, bytes: &[u8], count: usize) -> Vec<Vec<u8>> {
    let longer = [bytes, &[0]].concat();
    let mut all = vec![bytes.to_vec()];
    while all.len() < count {
        let mutation = mutated(random, bytes);
        if Change::between(&longer, &mutation).is_some() {
            all.push(mutation);
        }
    }
    all
}
