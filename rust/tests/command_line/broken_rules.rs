//! `check` names the rule that is broken: a sheet with a single byte changed, and where docs/FORMAT.md has that byte.

use std::path::PathBuf;
use std::sync::atomic::{AtomicUsize, Ordering};

use dovebolt::Refusal;

use crate::program::{file, folder, run_command, sample_bytes, words};

/// Offsets in samples/title.sheet, which has 3 animations, 14 contents, 29 targets, 61 keys and 5 texture names.
const CONTENTS: usize = 12 + 28 * 3;
const TARGETS: usize = CONTENTS + 28 * 14;
const FRAMES: usize = TARGETS + 14 * 29 + 24 * 5;
const POINTS: usize = FRAMES + 4 * 61;

/// A byte and what it is set to; then what must be told: the part with its row, the field, its offset, and what it is.
pub type Case = (usize, u8, &'static str, usize, &'static str);

/// A folder for each file, since the tests run side by side.
fn fresh() -> PathBuf {
    static NEXT: AtomicUsize = AtomicUsize::new(0);
    let number = NEXT.fetch_add(1, Ordering::Relaxed);
    folder(&format!("broken_{number}"))
}

/// `check` on the bytes with one of them changed, for each case.
pub fn check_all(name: &str, bytes: &[u8], refusal: Refusal, cases: &[Case]) {
    for (at, byte, place, offset, is) in cases {
        let mut damaged = bytes.to_vec();
        assert_ne!(damaged[*at], *byte, "byte {at} is {byte} already");
        damaged[*at] = *byte;
        check(name, &damaged, refusal, place, *offset, is);
    }
}

/// `check` on a file, as text and as an object.
pub fn check(name: &str, bytes: &[u8], refusal: Refusal, place: &str, offset: usize, is: &str) {
    let folder = fresh();
    file(&folder, name, bytes);
    let (number, meaning) = (refusal.number(), refusal.words());
    let ran = run_command(words(&["check", name]).current_dir(&folder));
    assert_eq!((ran.status, ran.err.as_str()), (1, ""), "{place}");
    let [line] = ran.lines()[..] else {
        panic!("{ran:?} has not one line");
    };
    let begin =
        format!("{name}: declined {number}: {meaning}: {place}, byte {offset}: is {is}, may be ");
    assert!(
        line.starts_with(&begin),
        "{line}\ndoesn't begin with\n{begin}"
    );

    let ran = run_command(words(&["check", name, "--json"]).current_dir(&folder));
    let object = &ran.objects()[0];
    assert_eq!(object.count("refusal"), number.into(), "{line}");
    assert_eq!(object.text("words"), meaning, "{line}");
    let count = |key: &str| object.has(key).then(|| object.count(key));
    let row = count("row").map_or(String::new(), |n| format!(" {n}"));
    let key = count("key").map_or(String::new(), |n| format!(" key {n}"));
    let (part, field) = (object.text("part"), object.text("field"));
    assert_eq!(format!("{part}{row}{key}, {field}"), place);
    assert_eq!(object.count("offset"), offset, "{line}");
    assert!(object.has("may_be") || object.has("from"), "{object:?}");
    if !object.has("is") {
        assert!(field == "label" || field == "name", "{object:?}");
    } else if part == "track" || ["transform", "SRT"].contains(&field) {
        let there = f32::from_le_bytes(bytes[offset..offset + 4].try_into().unwrap());
        let told = object.float("is");
        let same = told.to_bits() == there.to_bits() || told.is_nan() && there.is_nan();
        assert!(same, "{there} is told as {told}");
    } else {
        assert_eq!(object.count("is").to_string(), is);
    }
}

#[test]
fn of_sizes_and_animations() {
    let sheet = sample_bytes("title.sheet");
    let cases = [
        (0, 0, "sizes, animations", 0, "0"),
        (0, 9, "sizes, animations", 0, "9"),
        (2, 65, "sizes, contents", 2, "65"),
        (5, 2, "sizes, targets", 4, "541"),
        (7, 9, "sizes, keys", 6, "2365"),
        (8, 65, "sizes, textures", 8, "65"),
        (10, 1, "sizes, padding", 10, "1"),
        (11, 2, "sizes, padding", 10, "512"),
        // Sizes within their ranges that don't fit the length: an animation less, a texture name more.
        (0, 2, "file, length", 1746, "1746"),
        (8, 6, "file, length", 1746, "1746"),
        (12 + 2, 7, "animation 0, looping", 14, "7"),
        (40 + 2, 255, "animation 1, looping", 42, "255"),
        (12 + 3, 2, "animation 0, next present", 15, "2"),
        // Without a next its name must be zero, and animation 0's begins with I, which is 73.
        (12 + 3, 0, "animation 0, next name", 16, "73"),
        (68 + 27, 1, "animation 2, next name", 95, "1"),
    ];
    check_all("title.sheet", &sheet, Refusal::Sheet, &cases);
}

#[test]
fn of_contents_and_targets() {
    let sheet = sample_bytes("title.sheet");
    let content = |n: usize| CONTENTS + 28 * n;
    let target = |n: usize| TARGETS + 14 * n;
    let cases = [
        (content(5) + 1, 5, "content 5, type", content(5) + 1, "5"),
        (content(0) + 2, 1, "content 0, padding", content(0) + 2, "1"),
        (
            content(13) + 3,
            1,
            "content 13, padding",
            content(13) + 2,
            "256",
        ),
        (content(13), 3, "content 13, animation", content(13), "3"),
        // Content 6 is of animation 1.
        (content(7), 0, "content 7, animation", content(7), "0"),
        (target(28) + 8, 3, "target 28, curve", target(28) + 8, "3"),
        (target(4) + 9, 1, "target 4, padding", target(4) + 9, "1"),
        (target(28), 14, "target 28, content", target(28), "14"),
        // Target 11 is of content 5.
        (target(12), 4, "target 12, content", target(12), "4"),
        (
            target(3) + 10,
            8,
            "target 3, first key",
            target(3) + 10,
            "8",
        ),
        // A key more in target 3, and target 4 has another first key; in the last target, all are too many.
        (
            target(3) + 12,
            3,
            "target 4, first key",
            target(4) + 10,
            "9",
        ),
        (target(28) + 12, 2, "sizes, keys", 6, "61"),
    ];
    check_all("title.sheet", &sheet, Refusal::Sheet, &cases);
}

/// Where a key of the sheet has its numbers.
fn frame(key: usize) -> usize {
    FRAMES + 4 * key
}

fn value(key: usize) -> usize {
    POINTS + 8 * key
}

fn slope(key: usize) -> usize {
    POINTS + 8 * key + 4
}

/// With 127 for their highest byte 24, 360 and -1.5 are NaNs, and 1 is infinite.
#[test]
fn of_keys_that_are_not_finite() {
    let sheet = sample_bytes("title.sheet");
    let (f, v, s, one) = (frame(24), value(0), slope(28), value(4));
    let cases = [
        (f + 3, 127, "track 12 key 1, frame", f, "nan"),
        (v + 3, 127, "track 0 key 0, value", v, "nan"),
        (s + 3, 127, "track 13 key 2, slope", s, "nan"),
        (one + 3, 127, "track 1 key 1, value", one, "inf 0x7F800000"),
    ];
    check_all("title.sheet", &sheet, Refusal::KeyRules, &cases);
}

/// Constant frames and slopes are +0. Step values are whole and not -0, and Step slopes +0.
#[test]
fn of_keys_by_their_curve() {
    let sheet = sample_bytes("title.sheet");
    let minus = "-0 0x80000000";
    let (f, s) = (frame(11), slope(11));
    let cases = [
        (f + 3, 128, "track 5 key 0, frame", f, minus),
        (s + 3, 128, "track 5 key 0, slope", s, minus),
    ];
    check_all("title.sheet", &sheet, Refusal::KeyRules, &cases);
    let (v, s, one) = (value(7), slope(7), value(8));
    let cases = [
        (v + 3, 128, "track 3 key 0, value", v, minus),
        (s + 3, 128, "track 3 key 0, slope", s, minus),
        (one + 2, 192, "track 3 key 1, value", one, "1.5 0x3FC00000"),
    ];
    check_all("title.sheet", &sheet, Refusal::KeyRules, &cases);
}

/// Frames never fall: of track 3, which is Step, and of track 0, which is Hermite.
#[test]
fn of_frames_that_fall() {
    let sheet = sample_bytes("title.sheet");
    let (step, last) = (frame(8), frame(2));
    let cases = [
        (
            step + 3,
            193,
            "track 3 key 1, frame",
            step,
            "-10 0xC1200000",
        ),
        (last + 2, 0, "track 0 key 2, frame", last, "8 0x41000000"),
    ];
    check_all("title.sheet", &sheet, Refusal::KeyRules, &cases);
}
