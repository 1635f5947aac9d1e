//! The rules decline exactly what the proved code declines: rows laid out unchecked, good and bad ones by chance, are put to
//! both. Left out are names with zero bytes and empty names of contents, which the rules alone decline.

#[path = "../../tests/common/random.rs"]
mod random;

use random::Random;

use super::book::BookBuilder;
use super::sheet::SheetBuilder;
use super::{layout, rules};
use crate::address::{Address, ContentKind};
use crate::answers::Srt;
use crate::refusal::Refusal;
use crate::view::{BookView, SheetView};

const TRIES: u64 = 20_000;

/// Numbers at the edges of the rules, and any finite ones.
fn number(random: &mut Random) -> f32 {
    let edges = [
        0.0,
        1.0,
        65_535.0,
        -0.0,
        0.5,
        -1.0,
        65_536.0,
        f32::INFINITY,
        f32::NAN,
    ];
    match random.below(40) {
        0 => random.one_of(&edges),
        1 => random.finite(),
        n => n as f32,
    }
}

fn sheet(random: &mut Random) -> SheetBuilder {
    let mut sheet = SheetBuilder::new();
    let mut content = sheet.animation(8).content(ContentKind::Pane, "Logo");
    let address = Address::new(b"FLPA", 0, 0);
    for _ in 0..1 + random.below(3) {
        let count = random.below(3);
        let numbers: Vec<f32> = (0..3 * count).map(|_| number(random)).collect();
        let (frames, rest) = numbers.split_at(count);
        let (values, slopes) = rest.split_at(count);
        let pairs = frames.iter().copied().zip(values.iter().copied());
        match random.below(3) {
            0 => content.constant(address, values),
            1 => content.step(address, &Vec::from_iter(pairs)),
            _ => {
                let keys = pairs.zip(slopes).map(|((f, v), s)| (f, v, *s));
                content.hermite(address, &Vec::from_iter(keys))
            }
        };
    }
    sheet
}

#[test]
fn sheets() {
    let mut declined = 0;
    for seed in 0..TRIES {
        let sheet = sheet(&mut Random::new(seed));
        let bytes = layout::sheet(&sheet);
        let expected = rules::sheet(&sheet).err().map(|_| Refusal::KeyRules);
        assert_eq!(SheetView::of(&bytes).err(), expected, "{sheet:?}");
        declined += u64::from(expected.is_some());
    }
    assert!(
        (TRIES / 10..TRIES * 9 / 10).contains(&declined),
        "{declined} declined"
    );
}

fn book(random: &mut Random) -> BookBuilder {
    let mut book = BookBuilder::new();
    let names = ["A", "B", "C", "D", "E", ""];
    let name = |random: &mut Random, row: usize| match random.below(12) {
        0 => random.one_of(&names),
        _ => names[row],
    };
    let panes = random.below(4);
    for row in 0..panes {
        let label = name(random, row);
        let numbers = [(); 5].map(|_| number(random));
        let pane = book.pane(label).translation(numbers[0], 0.0, numbers[1]);
        pane.rotation(0.0, numbers[2], 0.0)
            .scale(1.0, numbers[3])
            .size(numbers[4], 1.0);
    }
    // Mostly an earlier pane, at times itself or a later one.
    for row in 1..panes {
        let below = if random.below(8) == 0 { panes } else { row };
        book.panes[row].parent = Some(book.panes[random.below(below)].label.clone());
    }
    for row in 0..random.below(3) {
        let rotate = number(random);
        let srts = [
            Srt::IDENTITY,
            Srt::IDENTITY,
            Srt {
                rotate,
                ..Srt::IDENTITY
            },
        ];
        book.material(name(random, row)).srts(srts);
    }
    book
}

#[test]
fn books() {
    let mut declined = 0;
    for seed in 0..TRIES {
        let book = book(&mut Random::new(seed));
        let bytes = layout::book(&book);
        let expected = rules::book(&book).err().map(|_| Refusal::Book);
        assert_eq!(BookView::of(&bytes).err(), expected, "{book:?}");
        declined += u64::from(expected.is_some());
    }
    assert!(
        (TRIES / 10..TRIES * 9 / 10).contains(&declined),
        "{declined} declined"
    );
}
