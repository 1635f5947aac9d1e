//! Saving: cases by name, of the library beside the plain machine and the plain
//! player. What every accepted save must come to (`Ours::again`) is looked at too.

use cases::bits::EDGES;
use cases::calls::player::ROWS;
use cases::calls::spoil::{self, Spoil};
use cases::calls::{Call, FILL_BYTE, Told};
use cases::format::sheet::{Animation, LONGEST, Sheet, Target};
use cases::random::Random;
use cases::sheets::{damage, good};
use compare::both::{Both, field, hermite, key_edit, slope_edit};

const SAVE: Call = Call::Save { short: 0 };

const MINUS_ZERO: f32 = -0.0;
const SMALLEST: f32 = f32::from_bits(1);

/// Saves into a buffer of each length, all of which are declined and left.
fn declined(both: &mut Both, shorts: &[u8], refusal: u8) {
    for &short in shorts {
        let answer = both.spoiled_call(Call::Save { short });
        let length = both.held().buffer_length(short);
        let left = Told::Saved(vec![FILL_BYTE; length]);
        assert_eq!((answer.refusal, answer.told), (refusal, left), "{short}");
    }
}

/// One key, all of its numbers 0.
fn one_key() -> Sheet {
    hermite(&[0.0])
}

/// An edit of the base's middle Hermite key, no two alike.
fn edit(n: usize) -> Call {
    key_edit(0, 1, 4.0 + n as f32 / 256.0, n as f32)
}

#[test]
fn an_edited_key_byte_by_byte() {
    let mut both = Both::play(&one_key());
    both.accept(key_edit(0, 0, 2.0, 1.0));
    both.accept(slope_edit(0, 0, -0.5));
    let (loaded, written) = (both.loaded(), both.save());
    let (rows, key) = written.split_at(12 + 28 + 28 + 14);
    assert_eq!(rows, &loaded[..rows.len()]);
    let (frame, value, slope) = ([0, 0, 0, 0x40], [0, 0, 0x80, 0x3F], [0, 0, 0, 0xBF]);
    assert_eq!(key, [frame, value, slope].concat());
}

#[test]
fn no_keys() {
    let with_rows = Sheet {
        targets: vec![Target::default(); 2],
        frames: Vec::new(),
        values: Vec::new(),
        slopes: Vec::new(),
        ..one_key()
    };
    let alone = Sheet {
        animations: vec![Animation::default()],
        ..Sheet::default()
    };
    for sheet in [with_rows, alone] {
        let mut both = Both::load(&sheet);
        assert_eq!(both.save(), both.loaded());
        declined(&mut both, &[1, 2, 3], 14);
    }
}

#[test]
fn a_buffer_of_another_length() {
    let mut both = Both::play(&damage::sheet::base());
    declined(&mut both, &[1, 2, 3], 14);
    both.accept(edit(1));
    declined(&mut both, &[1, 2, 3], 14);
}

/// Rows 1, 3, 4 and 5 decline before 14, and the lowest of them first.
#[test]
fn the_rows_in_order() {
    let mut both = Both::play(&damage::sheet::base());
    both.accept(edit(1));
    let sheet = both.loaded();
    let rows = [
        (field(spoil::STANDING, 2), 5),
        (
            Spoil::Key {
                array: 0,
                index: 1,
                bits: 9.0f32.to_bits(), // past the next key's 8
            },
            4,
        ),
        (Spoil::Short(2), 3),
        (Spoil::Sheet(sheet[..sheet.len() - 1].to_vec()), 1),
    ];
    for (spoil, refusal) in &rows {
        let back = both.spoil(spoil);
        declined(&mut both, &[0, 1, 2, 3], *refusal);
        both.spoil(&back);
        declined(&mut both, &[1, 2, 3], 14);
    }
    // Each of them with all that come after it.
    for (spoil, refusal) in &rows {
        both.spoil(spoil);
        declined(&mut both, &[0, 1, 2, 3], *refusal);
    }
}

/// A save takes no entry of the journal, so what row 5 asks of an undo's is no
/// matter to it: the key is written as it is lent.
#[test]
fn a_key_that_is_not_as_the_journal_left_it() {
    let mut both = Both::play(&damage::sheet::base());
    both.accept(edit(1));
    both.spoil(&Spoil::Key {
        array: 1,
        index: 1,
        bits: 7.0f32.to_bits(),
    });
    assert_eq!(both.spoiled_call(Call::Undo).refusal, 5);
    let answer = both.spoiled_call(SAVE);
    let written = answer.saved().expect("it is accepted");
    assert_eq!(Sheet::read(written).expect("a sheet").values[1], 7.0);
    assert_eq!(both.ours.again(written), Ok(()));
}

/// -0, the smallest subnormal and other edges: loaded, and put by edits, of which
/// a frame is clamped.
#[test]
fn patterns_survive() {
    for &number in [MINUS_ZERO, SMALLEST].iter().chain(&EDGES) {
        let loaded = Sheet {
            frames: vec![number],
            values: vec![number],
            slopes: vec![number],
            ..one_key()
        };
        let mut both = Both::load(&loaded);
        assert_eq!(both.save(), both.loaded());

        let mut both = Both::play(&one_key());
        both.accept(key_edit(0, 0, number, number));
        both.accept(slope_edit(0, 0, number));
        let saved = Sheet::read(&both.save()).expect("a sheet");
        let frame = both.held().keys[0][0];
        let numbers = [saved.frames[0], saved.values[0], saved.slopes[0]];
        let expected = [frame, number, number];
        assert_eq!(numbers.map(f32::to_bits), expected.map(f32::to_bits));
    }
}

#[test]
fn an_edit_undone_and_made_again() {
    let mut both = Both::play(&damage::sheet::base());
    let loaded = both.loaded();
    both.accept(edit(1));
    let edited = both.save();
    assert_ne!(edited, loaded);
    both.accept(Call::Undo);
    assert_eq!(both.save(), loaded);
    both.accept(Call::Redo);
    assert_eq!(both.save(), edited);
}

#[test]
fn more_edits_than_can_be_undone() {
    const EDITS: usize = 200;
    let mut both = Both::play(&damage::sheet::base());
    (0..EDITS).for_each(|n| both.accept(edit(n)));
    (0..ROWS).for_each(|_| both.accept(Call::Undo));
    assert_eq!(both.call(Call::Undo).refusal, 11);
    assert_eq!(both.held().player.standing, (EDITS - ROWS) as u64);
    let saved = Sheet::read(&both.save()).expect("a sheet");
    assert_ne!(saved.write(), both.loaded());
    assert_eq!(saved.values[1], (EDITS - ROWS - 1) as f32);
}

/// The saved sheet is loaded in its place, edited on, and saved.
#[test]
fn saved_loaded_and_saved() {
    let mut both = Both::play(&damage::sheet::base());
    both.accept(edit(1));
    let first = both.save();
    let mut next = Both::play(&Sheet::read(&first).expect("a sheet"));
    assert_eq!(next.loaded(), first);
    assert_eq!(next.save(), first);
    next.accept(edit(2));
    assert_ne!(next.save(), first);
    next.accept(Call::Undo);
    assert_eq!(next.save(), first);
}

#[test]
fn no_textures_and_the_most() {
    for count in [0, 64] {
        let mut sheet = damage::sheet::base();
        sheet.textures = (0..count).map(|i| [b'a' + i % 26; 24]).collect();
        let mut both = Both::play(&sheet);
        assert_eq!(both.save(), both.loaded());
        both.accept(edit(1));
        let saved = Sheet::read(&both.save()).expect("a sheet");
        assert_eq!((saved.textures, saved.values[1]), (sheet.textures, 1.0));
    }
}

#[test]
fn the_longest_sheet() {
    let (_, book) = damage::base_pair();
    let sheet = good::sheet(&mut Random::new(1), good::FULL, &book);
    let mut both = Both::load(&sheet);
    assert_eq!(both.loaded().len(), LONGEST);
    assert_eq!(both.save(), both.loaded());
    declined(&mut both, &[1, 2, 3], 14);

    let last = sheet.targets.iter().rposition(|t| t.key_count > 0);
    let track = last.expect("it has keys");
    let target = sheet.targets[track];
    let animation = sheet.contents[usize::from(target.content)].animation;
    both.accept(Call::Play(u16::from(animation)));
    // Its last key is the last of all, in the last bytes.
    both.accept(key_edit(track as u16, target.key_count - 1, 65_535.0, 3.0));
    let saved = Sheet::read(&both.save()).expect("a sheet");
    assert_eq!(saved.values.last(), Some(&3.0));
    both.accept(Call::Undo);
    assert_eq!(both.save(), both.loaded());
}
