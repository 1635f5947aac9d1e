//! Pictures of tracks: the keys' labels and the value axes.

use super::{drawn, edited, height_of, line, picture, small, title};
use crate::markup::after_each;
use crate::menu;

/// A key's label is the value and the frame as they are stored: what is printed reads back.
#[test]
fn key_labels() {
    let folder = menu("key_labels");
    let (_, keys) = edited(&folder, &[(3, 1, 7.3, 0.1234567), (3, 0, 1e-9, -1e30)]);
    let stem = drawn(&folder, "small", 0, &folder);
    let tracks = [(0, 0..2), (1, 2..4), (2, 4..5), (3, 5..7)];
    for (track, own) in tracks {
        let picture = picture(&stem, Some(track));
        let texts = after_each(&picture, "<text ", '<');
        let words = texts.iter().map(|text| text.split_once('>').unwrap().1);
        let labels = words.filter_map(|words| words.split_once(" at "));
        let labels: Vec<(f32, f32)> = labels
            .filter_map(|(value, frame)| Some((value.parse().ok()?, frame.parse().ok()?)))
            .collect();
        let stored: Vec<(f32, f32)> = own.map(|k| (keys.values[k], keys.frames[k])).collect();
        assert_eq!(labels, stored, "track {track}");
    }
    let title = picture(&title("key_labels", 0), Some(0));
    for label in [">360 at 0<", ">96 at 12<", ">120 at 15<"] {
        assert!(title.contains(label), "{label}");
    }
}

#[test]
fn value_axes() {
    let stem = small("value_axes", 0);
    let has = |stem: &str, track: u16, words: &[&str]| {
        let picture = picture(stem, Some(track));
        words
            .iter()
            .for_each(|w| assert!(picture.contains(&format!(">{w}<")), "{w}"));
    };
    has(&stem, 0, &["hidden", "shown"]);
    has(&stem, 1, &["row 0: day", "row 1: night"]);
    has(&stem, 2, &["level, 0 to 255", "0", "255", "200 at 0"]);
    has(&stem, 3, &["number", "0", "15"]);
    // A Step curve goes level, and then straight up at the key's frame.
    let visible = picture(&stem, Some(0));
    let points = line(&visible);
    let (bottom, top) = (height_of(&visible, "hidden"), height_of(&visible, "shown"));
    let heights: Vec<f32> = points.iter().map(|p| p.1 + 4.0).collect();
    assert_eq!(heights, [bottom, bottom, top, top]);
    assert_eq!(points[1].0, points[2].0);

    let alpha = picture(&small("value_axes", 1), Some(4));
    // The stored values 255 and 51 read as 1 and 0.2: the line and the keys' diamonds say so.
    let diamonds = after_each(&alpha, "<path d=\"M", 'l');
    let diamonds = diamonds
        .iter()
        .filter_map(|d| d.split_once(' ')?.1.parse().ok());
    let heights: Vec<f32> = diamonds.map(|y: f32| y + 4.0).collect();
    assert_eq!(
        heights,
        ["1.0", "0.2"].map(|words| height_of(&alpha, words))
    );
    let points = line(&alpha);
    let ends = [points[0], points[points.len() - 1]];
    assert_eq!(heights, ends.map(|end| end.1 + 4.0));
    assert_eq!(height_of(&alpha, "1.0"), height_of(&alpha, "255"));
    assert_eq!(height_of(&alpha, "0.2"), height_of(&alpha, "51"));

    let idle = title("value_axes", 1);
    has(&idle, 13, &["degrees", "10°"]);
    has(&idle, 20, &["scale", "×1.5"]);
    has(
        &idle,
        21,
        &["row 0: cursor_0", "row 1: cursor_1", "row 2: cursor_2"],
    );
    has(&idle, 22, &["row 0: cursor_0", "row 9: no such texture"]);
    has(&idle, 23, &["level, 0 to 255", "255"]);
    assert_eq!(line(&picture(&idle, Some(15))).len(), 2);
}
