//! `keys COUNT SEED`: the plain key rules beside the proved check of row 4, on
//! every rule broken alone and then on COUNT lent keys, good and changed.

use cases::format::keys;
use cases::format::sheet::Sheet;
use cases::random::Random;
use cases::sheets::{books, damage, good};
use compare::arguments::Arguments;
use compare::probe::formats;
use compare::tally::Tally;

/// Changes of each sheet's keys.
const CHANGES: usize = 31;

fn main() {
    let Arguments { count, seed } = Arguments::read(1_000_000);
    let mut tally = Tally::default();
    for case in damage::keys::all() {
        let sheet = Sheet::read(&case.bytes).expect("its layout is whole");
        compare(&mut tally, &sheet, &case.bytes);
    }
    tally.report("keys, each rule alone");

    let mut random = Random::new(seed);
    let mut tally = Tally::default();
    while tally.compared < count {
        let good = some(&mut random);
        let bytes = good.write();
        compare(&mut tally, &good, &bytes);
        for _ in 0..CHANGES {
            let mut changed = good.clone();
            for _ in 0..1 + random.below(2) {
                change(&mut random, &mut changed);
            }
            compare(&mut tally, &changed, &bytes);
        }
    }
    tally.report(&format!("keys, seed {seed}"));
}

fn some(random: &mut Random) -> Sheet {
    let book = books::book(random, books::FULL);
    let size = good::size(random);
    good::sheet(random, size, &book)
}

/// Another number at one place of the keys, often one that a rule names.
fn change(random: &mut Random, sheet: &mut Sheet) {
    if sheet.frames.is_empty() {
        return;
    }
    let key = random.below(sheet.frames.len());
    let numbers = match random.below(3) {
        0 => &mut sheet.frames,
        1 => &mut sheet.values,
        _ => &mut sheet.slopes,
    };
    let old = numbers[key];
    numbers[key] = match random.below(8) {
        0 => f32::from_bits(random.word() as u32),
        1 => random.pick(&[0.0, -0.0, f32::INFINITY, f32::NEG_INFINITY, f32::NAN]),
        2 => old.next_up(),
        3 => old.next_down(),
        4 => -old,
        5 => random.below(65_537) as f32,
        6 => numbers[random.below(numbers.len())],
        _ => random.number(),
    };
}

/// The keys of `sheet`, lent beside the bytes of a sheet with the same rows.
fn compare(tally: &mut Tally, sheet: &Sheet, bytes: &[u8]) {
    let Sheet {
        frames,
        values,
        slopes,
        ..
    } = sheet;
    let plain = keys::own_ok(sheet);
    let proved = formats::keys_ok(bytes, frames, values, slopes);
    tally.add(plain, proved, || format!("{sheet:?}"));
}
