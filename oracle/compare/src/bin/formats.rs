//! `formats COUNT SEED`: the plain readers of sheets and books, and loading,
//! beside the proved ones, on every rule broken alone and then on COUNT good and
//! mutated ones. A sheet that loads is saved again, which must give its bytes.

use cases::calls::FILL_BYTE;
use cases::format::load::{self, Arrays};
use cases::format::{book_refusal, loading_refusal};
use cases::random::Random;
use cases::sheets::{books, damage, good};
use compare::arguments::Arguments;
use compare::probe::formats;
use compare::tally::Tally;
use dovebolt::Player;

/// Mutations of each good sheet and book.
const MUTATIONS: usize = 31;

/// What stands in an array before loading: a refused call leaves it.
const BEFORE: f32 = -77.0;

#[derive(Default)]
struct Tallies {
    sheets: Tally,
    loads: Tally,
    saves: Tally,
    books: Tally,
}

fn main() {
    let Arguments { count, seed } = Arguments::read(1_000_000);
    let mut random = Random::new(seed);
    let mut tallies = Tallies::default();
    for case in damage::sheet::all().iter().chain(&damage::keys::all()) {
        tallies.add_sheet(&mut random, &case.bytes);
    }
    for case in damage::book::all() {
        tallies.add_book(&case.bytes);
    }
    tallies.report("each rule alone");

    let mut tallies = Tallies::default();
    while tallies.sheets.compared < count {
        let (sheet, book) = some(&mut random);
        tallies.add_sheet(&mut random, &sheet);
        tallies.add_book(&book);
        for _ in 0..MUTATIONS {
            let mutation = damage::mutated(&mut random, &sheet);
            tallies.add_sheet(&mut random, &mutation);
            tallies.add_book(&damage::mutated(&mut random, &book));
        }
    }
    tallies.report(&format!("seed {seed}"));
}

impl Tallies {
    fn add_sheet(&mut self, random: &mut Random, bytes: &[u8]) {
        let case = || format!("{bytes:02x?}");
        let refusal = loading_refusal(bytes);
        self.sheets
            .add(refusal != 1, formats::sheet_ok(bytes), case);
        let arrays = arrays(random, bytes);
        let plain = load::answer(bytes, &arrays);
        self.loads.add(plain, formats::load(bytes, &arrays), case);
        if refusal == 0 {
            self.saves.add((0, bytes.to_vec()), saved(bytes), case);
        }
    }

    fn add_book(&mut self, bytes: &[u8]) {
        let plain = book_refusal(bytes) == 0;
        self.books
            .add(plain, formats::book_ok(bytes), || format!("{bytes:02x?}"));
    }

    fn report(&self, which: &str) {
        self.sheets.report(&format!("sheets, {which}"));
        self.loads.report(&format!("loading, {which}"));
        self.saves.report(&format!("saving what loads, {which}"));
        self.books.report(&format!("books, {which}"));
    }
}

/// Arrays as long as the sheet names; now and then one is not.
fn arrays(random: &mut Random, bytes: &[u8]) -> Arrays {
    let named = match bytes.get(6..8) {
        Some(count) => usize::from(u16::from_le_bytes([count[0], count[1]])),
        None => 0,
    };
    let mut arrays: Arrays = std::array::from_fn(|_| vec![BEFORE; named.min(3000)]);
    if random.once_in(16) {
        let wrong = random.pick(&[0, named / 2, named + 1]);
        arrays[random.below(3)].resize(wrong.min(3000), BEFORE);
    }
    arrays
}

/// The refusal, or 0, and the buffer, of a save right after loading.
fn saved(sheet: &[u8]) -> (u8, Vec<u8>) {
    let mut out = vec![FILL_BYTE; sheet.len()];
    let saved =
        Player::load(sheet).and_then(|(player, keys)| player.save_into(sheet, &keys, &mut out));
    (saved.err().map_or(0, |refusal| refusal.number()), out)
}

/// A good sheet and a good book.
fn some(random: &mut Random) -> (Vec<u8>, Vec<u8>) {
    let size = books::size(random);
    let book = books::book(random, size);
    let size = good::size(random);
    let sheet = good::sheet(random, size, &book);
    (sheet.write(), book.write())
}
