//! As many rows of each kind as the scope paper allows, and one more.

use dovebolt::{
    BookBuilder, BookView, MaterialChannel, PaneChannel, Problem, Row, SheetBuilder, SheetView,
};

/// Eight keys for each of 256 tracks, four tracks for each of 64 contents, eight contents for each of eight animations.
fn full_sheet() -> SheetBuilder {
    let keys: Vec<(f32, f32, f32)> = (0..8).map(|n| (n as f32, 0.0, 0.0)).collect();
    let mut sheet = SheetBuilder::new();
    for _ in 0..8 {
        let animation = sheet.animation(60);
        for _ in 0..8 {
            let mut content = animation.material("Glow");
            for track in 0..4 {
                content.hermite(MaterialChannel::ALL[track], &keys);
            }
        }
    }
    for row in 0..64 {
        sheet.texture(&format!("texture {row}"));
    }
    sheet
}

fn full_book() -> BookBuilder {
    let mut book = BookBuilder::new();
    for row in 0..64 {
        book.pane(&format!("pane {row}"));
    }
    for row in 0..32 {
        book.material(&format!("material {row}"));
    }
    book
}

#[test]
fn the_largest_sheet_and_book() {
    let bytes = full_sheet().build().unwrap();
    assert_eq!(bytes.len(), 31_724);
    let sheet = SheetView::of(&bytes).unwrap();
    let counts = [
        sheet.animations().len(),
        sheet.contents().len(),
        sheet.tracks().len(),
        sheet.key_count(),
    ];
    assert_eq!((counts, sheet.textures().len()), ([8, 64, 256, 2_048], 64));

    let bytes = full_book().build().unwrap();
    assert_eq!(bytes.len(), 9_604);
    let book = BookView::of(&bytes).unwrap();
    assert_eq!((book.panes().len(), book.materials().len()), (64, 32));
    assert_eq!(book.channel_count(), 28 * 64 + 30 * 32);
}

/// The row that is one too many is told, and how many there are at most.
fn sheet_told(sheet: &SheetBuilder, row: Row, most: usize, place: &str) {
    let error = sheet.build().unwrap_err();
    assert_eq!(
        (error.row(), error.problem()),
        (row, &Problem::TooMany { most })
    );
    assert_eq!(
        error.to_string(),
        format!("{place}: there are {most} at most")
    );
}

#[test]
fn one_more_in_a_full_sheet() {
    let mut sheet = full_sheet();
    sheet.animation(1);
    sheet_told(&sheet, Row::Animation(8), 8, "animation 8");
    let mut sheet = full_sheet();
    sheet.texture("one more");
    sheet_told(&sheet, Row::Texture(64), 64, "texture 64 (\"one more\")");
}

#[test]
fn one_more_content() {
    let mut sheet = SheetBuilder::new();
    let animation = sheet.animation(1);
    for _ in 0..65 {
        animation.pane("Logo");
    }
    let place = "animation 0, content 64 (pane \"Logo\")";
    sheet_told(&sheet, Row::Content(64), 64, place);
}

#[test]
fn one_more_track() {
    let mut sheet = SheetBuilder::new();
    let animation = sheet.animation(1);
    let mut content = animation.pane("Logo");
    for _ in 0..257 {
        content.constant(PaneChannel::Alpha, &[]);
    }
    let place = "animation 0, content 0 (pane \"Logo\"), track 256 (alpha)";
    sheet_told(&sheet, Row::Track(256), 256, place);
}

/// Its number is that in its own track.
#[test]
fn one_more_key() {
    let mut sheet = SheetBuilder::new();
    sheet
        .animation(1)
        .pane("Logo")
        .constant(PaneChannel::Alpha, &[1.0; 2_000])
        .constant(PaneChannel::SizeX, &[1.0; 49]);
    let place = "animation 0, content 0 (pane \"Logo\"), track 1 (size_x), key 48";
    sheet_told(&sheet, Row::Key { track: 1, key: 48 }, 2_048, place);
}

#[test]
fn one_more_in_a_book() {
    let mut book = full_book();
    book.pane("one more");
    let error = book.build().unwrap_err();
    assert_eq!(
        (error.row(), error.problem()),
        (Row::Pane(64), &Problem::TooMany { most: 64 })
    );
    let mut book = full_book();
    book.material("one more");
    let error = book.build().unwrap_err();
    assert_eq!(
        (error.row(), error.problem()),
        (Row::Material(32), &Problem::TooMany { most: 32 })
    );
}
