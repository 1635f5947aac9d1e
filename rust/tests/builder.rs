//! Built sheets and books against bytes that were written otherwise.

use std::fs;
use std::path::Path;

use dovebolt::{
    Address, BookBuilder, ContentKind, Horizontal, MaterialChannel, PaneChannel, SheetBuilder, Srt,
    Vector2f, Vertical, example,
};

#[test]
fn the_example_sheet() {
    let mut sheet = SheetBuilder::new();
    let first = sheet.animation(8).next("Idle");
    first
        .pane("Logo")
        .step(PaneChannel::Visible, &[(0.0, 0.0), (4.0, 1.0)]);
    first
        .material("Glow")
        .step(MaterialChannel::Texture0, &[(0.0, 0.0), (4.0, 1.0)])
        .constant(MaterialChannel::BlackRed, &[200.0]);
    first.pane("Logo").hermite(
        PaneChannel::TranslateX,
        &[(0.0, 0.0, 0.0), (8.0, 16.0, 0.0)],
    );
    let second = sheet.animation(60).looping();
    second
        .pane("Logo")
        .hermite(PaneChannel::Alpha, &[(0.0, 255.0, 0.0), (60.0, 51.0, 0.0)]);
    sheet.texture("day").texture("night");
    assert_eq!(sheet.build().unwrap(), example::sheet());
}

#[test]
fn the_example_book() {
    let mut book = BookBuilder::new();
    book.pane("Root").size(100.0, 50.0);
    book.pane("Logo")
        .parent("Root")
        .alpha(51)
        .translation(1.0, 2.0, 3.0)
        .rotation(4.0, 5.0, 6.0)
        .scale(7.0, 8.0)
        .size(9.0, 10.0);
    let srts = [0.0, 5.0, 10.0].map(|from: f32| Srt {
        translate: Vector2f {
            x: from + 1.0,
            y: from + 2.0,
        },
        rotate: from + 3.0,
        scale: Vector2f {
            x: from + 4.0,
            y: from + 5.0,
        },
    });
    book.material("Glow")
        .textures(["plain", "mask", ""])
        .srts(srts);
    assert_eq!(book.build().unwrap(), example::book());
}

/// Flags, origins, types, layers and raw numbers that the example menu doesn't have, at the offsets of docs/FORMAT.md.
#[test]
fn fields_at_their_offsets() {
    let mut sheet = SheetBuilder::new();
    let address = Address::new(b"ABCD", 200, 9);
    sheet
        .animation(65_535)
        .looping()
        .next("B")
        .content(ContentKind::StateMachine, "")
        .constant(address, &[]);
    let sheet = sheet.build().unwrap();
    assert_eq!(
        sheet[..17],
        [1, 0, 1, 0, 1, 0, 0, 0, 0, 0, 0, 0, 255, 255, 1, 1, b'B']
    );
    assert_eq!(sheet[40..44], [0, 4, 0, 0]);
    assert_eq!(
        &sheet[68..],
        b"\x00\x00\x09\xC8ABCD\x00\x00\x00\x00\x00\x00"
    );

    let mut book = BookBuilder::new();
    book.pane("A");
    book.pane("B")
        .parent("A")
        .visible(false)
        .origins(Horizontal::Left, Vertical::Bottom)
        .alpha(7);
    book.pane("C")
        .parent("B")
        .influences_alpha(false)
        .origins(Horizontal::Right, Vertical::Top);
    book.pane("D").visible(false).influences_alpha(false);
    let book = book.build().unwrap();
    let fields = |row: usize| &book[4 + 72 * row + 24..4 + 72 * row + 32];
    assert_eq!(fields(0), [255, 255, 3, 255, 0, 0, 0, 0]);
    assert_eq!(fields(1), [0, 0, 2, 7, 1, 2, 0, 0]);
    assert_eq!(fields(2), [1, 0, 1, 255, 2, 1, 0, 0]);
    assert_eq!(fields(3), [255, 255, 0, 255, 0, 0, 0, 0]);
}

/// The bytes of docs/FORMAT.md's example, whose lines are `    01c  ff ff 03 ff ..  what`: the sheet's, then the book's.
fn documented() -> [Vec<u8>; 2] {
    let path = Path::new(env!("CARGO_MANIFEST_DIR")).join("../docs/FORMAT.md");
    let document = fs::read_to_string(path).unwrap();
    let (_, example) = document
        .split_once("\n## A sheet and a book, byte for byte\n")
        .unwrap();
    let mut files = [vec![], vec![]];
    let mut file = 0;
    for line in example.split("\n## ").next().unwrap().lines() {
        let Some((offset, rest)) = line.strip_prefix("    ").and_then(|l| l.split_once("  "))
        else {
            continue;
        };
        let Ok(offset) = usize::from_str_radix(offset, 16) else {
            continue;
        };
        if offset == 0 && !files[0].is_empty() {
            file = 1;
        }
        assert_eq!(offset, files[file].len(), "{line}");
        let bytes = rest.trim_start().split("  ").next().unwrap();
        let bytes = bytes
            .split(' ')
            .map(|byte| u8::from_str_radix(byte, 16).unwrap());
        files[file].extend(bytes);
    }
    files
}

#[test]
fn the_documented_bytes() {
    let mut sheet = SheetBuilder::new();
    let keys = [(0.0, 0.0, 0.0), (8.0, 16.0, 0.0)];
    sheet
        .animation(8)
        .pane("Box")
        .hermite(PaneChannel::TranslateX, &keys);
    let mut book = BookBuilder::new();
    book.pane("Box")
        .translation(10.0, 20.0, 0.0)
        .size(64.0, 32.0);
    assert_eq!(
        [sheet.build().unwrap(), book.build().unwrap()],
        documented()
    );
}
