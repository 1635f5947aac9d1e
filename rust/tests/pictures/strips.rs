//! Filmstrips: their cells, the frames that are left out, the changes in words, and names of any bytes.

use std::fs;
use std::path::Path;

use dovebolt::{Keys, Player, example};

use super::{captions, changes, drawn, edited, picture, small, title};
use crate::menu;

#[test]
fn filmstrip() {
    let stem = small("filmstrip", 0);
    let strip = picture(&stem, None);
    assert_eq!(captions(&strip), (0..8).collect::<Vec<_>>());
    // "Logo" is hidden in the first four of the eight frames; "Root" is the stage.
    assert_eq!(strip.matches("<polygon").count(), 4);
    for track in 0..4 {
        // Each key has its diamond.
        let diamonds = picture(&stem, Some(track))
            .matches("l6 -6l6 6l-6 6z")
            .count();
        assert_eq!(diamonds, if track == 2 { 1 } else { 2 });
    }
}

/// The frames in which a channel or a pane's state differs from the frame before.
fn changing(sheet: &[u8], book: &[u8], keys: &Keys, number: u16, count: usize) -> Vec<usize> {
    let (mut player, _) = Player::load(sheet).unwrap();
    let mut before = None;
    let mut differs = |frame: &usize| {
        player.pose(sheet, Some(number), *frame as f32).unwrap();
        let all = player.read_all(sheet, book, keys).unwrap();
        let panes = player.cascade(sheet, book, keys).unwrap();
        let panes = panes
            .iter()
            .flat_map(|c| [c.alpha, c.influence, f32::from(u8::from(c.visible))]);
        let bits: Vec<u32> = all
            .numbers
            .into_iter()
            .chain(panes)
            .map(f32::to_bits)
            .collect();
        let now = Some((all.marks, bits));
        std::mem::replace(&mut before, now.clone()) != now
    };
    (0..count).filter(|frame| differs(frame)).collect()
}

#[test]
fn still_frames() {
    let folder = menu("still_frames");
    let (sheet, keys) = edited(&folder, &[(3, 1, 8.0, 0.0)]);
    let strip = picture(&drawn(&folder, "small", 0, &folder), None);
    assert_eq!(changing(&sheet, &example::book(), &keys, 0, 8), [0, 4]);
    assert_eq!(captions(&strip), [0, 4]);
    assert!(strip.contains("<title>frames 1 to 3: as frame 0</title>"));
    assert!(strip.contains("<title>frames 5 to 7: as frame 4</title>"));
    assert!(strip.contains("6 frames in which nothing changes are left out."));

    // From row 0 to no override at frame 4: only the mark differs.
    let (sheet, keys) = edited(
        &folder,
        &[(3, 1, 8.0, 0.0), (0, 1, 6.0, 1.0), (1, 1, 4.0, 9.0)],
    );
    let strip = picture(&drawn(&folder, "small", 0, &folder), None);
    assert_eq!(changing(&sheet, &example::book(), &keys, 0, 8), [0, 4, 6]);
    assert_eq!(captions(&strip), [0, 4, 6]);
    assert!(strip.contains(">Glow texture_0 no override<"));

    let samples = Path::new(env!("CARGO_MANIFEST_DIR")).join("../samples/title.");
    let [sheet, book] = ["sheet", "book"].map(|end| fs::read(samples.with_extension(end)).unwrap());
    let (_, keys) = Player::load(&sheet).unwrap();
    for (number, count) in [(0, 16), (1, 48), (2, 10)] {
        let strip = picture(&title("still_frames", number), None);
        assert_eq!(
            captions(&strip),
            changing(&sheet, &book, &keys, number, count)
        );
        assert_eq!(strip.contains(">frame 9: as<"), number == 2);
    }
}

/// What is shown below a cell and what is counted there make up the whole, which pointing at it shows.
#[test]
fn changes_in_words() {
    let strip = picture(&small("changes", 0), None);
    let told = changes(&strip);
    assert_eq!(told.len(), 2);
    assert_eq!(told[0].0, ["Glow texture_0 day", "Glow black_red 200"]);
    assert_eq!(
        told[1],
        (
            vec!["Glow texture_0 night"],
            "Glow texture_0 night".to_string()
        )
    );

    for number in [0, 1] {
        let strip = picture(&title("changes", number), None);
        let told = changes(&strip);
        assert_eq!(told.len(), captions(&strip).len());
        let mut cut = 0;
        for (all, shown) in &told {
            let Some((shown, more)) = shown.split_once(" … and ") else {
                assert_eq!(*shown, all.join(", "));
                continue;
            };
            cut += 1;
            let more: usize = more.strip_suffix(" more").unwrap().parse().unwrap();
            assert_eq!(shown.split(", ").count() + more, all.len(), "{shown}");
        }
        assert!(cut > 0);
        let words = ["M_Sky texture_0 sky_noon", "M_Cursor white_red 205"][usize::from(number)];
        assert!(
            told.iter()
                .any(|(all, shown)| all[0] == words && shown.starts_with(words))
        );
    }
}

/// Names of any bytes: "Logo" in both files, and a texture.
#[test]
fn odd_names() {
    const ODD: &[u8] = b"<a&b>\"'\x01\x7f\n\xff]]>\0wwwwwwwww";
    let folder = menu("odd_names");
    for (file, name) in [
        ("small.sheet", "Logo"),
        ("small.book", "Logo"),
        ("small.sheet", "night"),
    ] {
        let path = folder.join(file);
        let mut bytes = fs::read(&path).unwrap();
        let field = [name.as_bytes(), &[0; 24]].concat()[..24].to_vec();
        for at in 0..bytes.len() - 23 {
            if bytes[at..at + 24] == field {
                bytes[at..at + ODD.len()].copy_from_slice(ODD);
            }
        }
        fs::write(path, bytes).unwrap();
    }
    let stem = drawn(&folder, "small", 0, &folder);
    let escaped = "&lt;a&amp;b&gt;&quot;&apos;\u{2401}\u{2421}\u{240a}\u{fffd}]]&gt;";
    assert!(picture(&stem, None).contains(escaped));
    for track in [0, 1, 3] {
        assert!(picture(&stem, Some(track)).contains(escaped));
    }
}

/// The pictures of the documents are what the program draws now.
#[test]
fn documents() {
    let stem = title("documents", 0);
    let stored = Path::new(env!("CARGO_MANIFEST_DIR")).join("../docs/pictures");
    for (name, track) in [("title-0.svg", None), ("title-0-track-0.svg", Some(0))] {
        let stored = fs::read_to_string(stored.join(name)).unwrap();
        assert!(stored == picture(&stem, track), "{name} is another");
    }
}
