//! `check` names the rule that is broken: a book with a single byte changed, and files of another length.

use dovebolt::{BookBuilder, Refusal};

use crate::broken_rules::{check, check_all};
use crate::program::sample_bytes;

#[test]
fn of_a_book() {
    let book = sample_bytes("title.book");
    let pane = |n: usize| 4 + 72 * n;
    // Scale u of material 2's layer 2, which is 1.
    let scale = 4 + 72 * 12 + 156 * 2 + 136 + 12;
    let infinite = "inf 0x7F800000";
    let cases = [
        (0, 0, "sizes, panes", 0, "0"),
        (0, 65, "sizes, panes", 0, "65"),
        (2, 33, "sizes, materials", 2, "33"),
        (2, 2, "file, length", 1336, "1336"),
        (pane(2) + 24, 2, "pane 2, parent", pane(2) + 24, "2"),
        (pane(0) + 25, 0, "pane 0, parent", pane(0) + 24, "255"),
        (pane(9) + 26, 4, "pane 9, flags", pane(9) + 26, "4"),
        (
            pane(1) + 28,
            3,
            "pane 1, horizontal origin",
            pane(1) + 28,
            "3",
        ),
        (
            pane(1) + 29,
            3,
            "pane 1, vertical origin",
            pane(1) + 29,
            "3",
        ),
        (pane(11) + 30, 9, "pane 11, padding", pane(11) + 30, "9"),
        (pane(0) + 67, 127, "pane 0, transform", pane(0) + 64, "nan"),
        (
            pane(3) + 59,
            127,
            "pane 3, transform",
            pane(3) + 56,
            infinite,
        ),
        (scale + 3, 127, "material 2, SRT", scale, infinite),
    ];
    check_all("title.book", &book, Refusal::Book, &cases);
}

/// Names of one letter, so that one byte makes them empty or another's.
#[test]
fn of_names() {
    let mut book = BookBuilder::new();
    for label in ["A", "B", "C"] {
        book.pane(label);
    }
    for name in ["A", "B"] {
        book.material(name);
    }
    let book = book.build().unwrap();
    let (pane, material) = (|n: usize| 4 + 72 * n, |n: usize| 4 + 72 * 3 + 156 * n);
    let cases = [
        (pane(1), 0, "pane 1, label", pane(1), "empty"),
        (pane(2), b'B', "pane 2, label", pane(2), "that of row 1"),
        (material(1), 0, "material 1, name", material(1), "empty"),
        (
            material(1),
            b'A',
            "material 1, name",
            material(1),
            "that of row 0",
        ),
    ];
    check_all("names.book", &book, Refusal::Book, &cases);
}

#[test]
fn of_lengths() {
    for (name, refusal) in [
        ("title.sheet", Refusal::Sheet),
        ("title.book", Refusal::Book),
    ] {
        let bytes = sample_bytes(name);
        let longer = [&bytes[..], &[0]].concat();
        for part in [
            &bytes[..3],
            &bytes[..11],
            &bytes[..12],
            &bytes[..bytes.len() - 1],
            &longer,
        ] {
            let n = part.len();
            check(name, part, refusal, "file, length", n, &n.to_string());
        }
    }
}
