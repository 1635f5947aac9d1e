//! Each byte of the samples set to three other values: `check` declines exactly what this package declines, by the same refusal,
//! and says which rule is broken exactly there.

use std::path::Path;

use dovebolt::{BookView, Player, Refusal};

use crate::json::Object;
use crate::program::{file, folder, run_command, sample_bytes, words};

/// The arguments have room for some 3,000 names as short as these; fewer files are faster to look through.
const AT_ONCE: usize = 400;

type Verdict = Result<(), Refusal>;

/// A file with one byte changed, where and to what, and what the package says of it.
struct Damaged {
    at: usize,
    byte: u8,
    bytes: Vec<u8>,
    verdict: Verdict,
}

fn damages(bytes: &[u8], verdict: fn(&[u8]) -> Verdict) -> Vec<Damaged> {
    let one = |at: usize, more: u8| {
        let mut damaged = bytes.to_vec();
        let byte = damaged[at].wrapping_add(more);
        damaged[at] = byte;
        let verdict = verdict(&damaged);
        Damaged {
            at,
            byte,
            bytes: damaged,
            verdict,
        }
    };
    let places = (0..bytes.len()).flat_map(|at| [(at, 1), (at, 127), (at, 128)]);
    places.map(|(at, more)| one(at, more)).collect()
}

/// The members that say which rule is broken.
const REASON: [&str; 3] = ["part", "field", "offset"];

fn agrees(object: &Object, damaged: &Damaged, kind: &str) {
    let place = format!("byte {} set to {}: {object:?}", damaged.at, damaged.byte);
    match damaged.verdict {
        Ok(()) => {
            assert_eq!(
                (object.text("answer"), object.text("is")),
                ("ok", kind),
                "{place}"
            );
            assert!(!REASON.iter().any(|key| object.has(key)), "{place}");
        }
        Err(refusal) => {
            assert_eq!(object.text("answer"), "declined", "{place}");
            assert_eq!(object.count("refusal"), refusal.number().into(), "{place}");
            assert_eq!(object.text("words"), refusal.words(), "{place}");
            assert!(REASON.iter().all(|key| object.has(key)), "{place}");
            assert!(object.count("offset") <= damaged.bytes.len(), "{place}");
        }
    }
}

/// Files of one verdict, in one run.
fn run_some(folder: &Path, some: &[&Damaged], kind: &str, status: i32) {
    let name = |n: usize| format!("{n}.{kind}");
    let names = Vec::from_iter((0..some.len()).map(name));
    for (name, damaged) in names.iter().zip(some) {
        file(folder, name, &damaged.bytes);
    }
    let mut command = words(&["check", "--json"]);
    let ran = run_command(command.args(&names).current_dir(folder));
    assert_eq!((ran.status, ran.err.as_str()), (status, ""));
    let objects = ran.objects();
    // A book is held against the file before it, but only where that is a sheet: there are no warnings here.
    assert_eq!(objects.len(), some.len());
    for ((object, damaged), name) in objects.iter().zip(some).zip(&names) {
        assert_eq!(object.text("file"), name);
        agrees(object, damaged, kind);
    }
}

fn run_all(bytes: &[u8], verdict: fn(&[u8]) -> Verdict, kind: &str) {
    let folder = folder(&format!("every_byte_{kind}"));
    let all = damages(bytes, verdict);
    assert_eq!(all.len(), 3 * bytes.len());
    let (accepted, declined): (Vec<_>, Vec<_>) = all.iter().partition(|d| d.verdict.is_ok());
    assert!(!accepted.is_empty() && !declined.is_empty());
    for some in accepted.chunks(AT_ONCE) {
        run_some(&folder, some, kind, 0);
    }
    for some in declined.chunks(AT_ONCE) {
        run_some(&folder, some, kind, 1);
    }
}

#[test]
fn of_the_sheet() {
    let verdict = |bytes: &[u8]| Player::load(bytes).map(|_| ());
    run_all(&sample_bytes("title.sheet"), verdict, "sheet");
}

#[test]
fn of_the_book() {
    let verdict = |bytes: &[u8]| BookView::of(bytes).map(|_| ());
    run_all(&sample_bytes("title.book"), verdict, "book");
}
