//! Pictures of the example program `filmstrip`, as text: what stands where in them.

mod strips;
mod tracks;

use std::fs;
use std::path::Path;

use dovebolt::{Keys, Player, example};

use crate::markup::{after_each, well_formed};
use crate::{menu, program, run};

/// Draws an animation of `STEM.sheet` and `STEM.book` into a folder, which it answers with the pictures' stem.
fn drawn(files: &Path, stem: &str, number: u16, folder: &Path) -> String {
    let [sheet, book] = ["sheet", "book"].map(|end| files.join(format!("{stem}.{end}")));
    let mut program = program("filmstrip");
    run(program
        .args([sheet, book])
        .arg(number.to_string())
        .arg(folder));
    folder
        .join(format!("{stem}-{number}"))
        .display()
        .to_string()
}

fn small(name: &str, number: u16) -> String {
    let folder = menu(name);
    drawn(&folder, "small", number, &folder)
}

fn title(name: &str, number: u16) -> String {
    let samples = Path::new(env!("CARGO_MANIFEST_DIR")).join("../samples");
    drawn(&samples, "title", number, &menu(name))
}

/// The example menu's sheet with key edits of animation 0 (track, key, frame, value), written into the folder, and its keys.
fn edited(folder: &Path, edits: &[(u16, u16, f32, f32)]) -> (Vec<u8>, Keys) {
    let sheet = example::sheet();
    let (mut player, mut keys) = Player::load(&sheet).unwrap();
    player.play(&sheet, Some(0)).unwrap();
    for (track, key, frame, value) in edits {
        let edit = player.key_edit(&sheet, &mut keys, *track, *key, *frame, *value);
        assert_eq!(edit, Ok(dovebolt::Edited::Made));
    }
    let saved = player.save(&sheet, &keys).unwrap();
    fs::write(folder.join("small.sheet"), &saved).unwrap();
    (saved, keys)
}

/// A strip, or a track's picture: well-formed, with letters that can be read where it is as wide as a README.
fn picture(stem: &str, track: Option<u16>) -> String {
    let end = track.map_or(String::new(), |track| format!("-track-{track}"));
    let path = format!("{stem}{end}.svg");
    let text = fs::read_to_string(&path).unwrap_or_else(|e| panic!("{path}: {e}"));
    well_formed(&text);
    assert!(text.starts_with("<svg ") && text.contains(" width=\"830\" "));
    assert!(text.contains(" role=\"img\" ") && text.contains("<desc id=\"desc\">"));
    for size in after_each(&text, "font-size=\"", '"') {
        assert!(
            size.parse::<f32>().unwrap() >= 11.0,
            "{path}: letters of {size}"
        );
    }
    text
}

/// The points of a track's line.
fn line(picture: &str) -> Vec<(f32, f32)> {
    let path = after_each(picture, "<path d=\"M", '>')
        .into_iter()
        .find(|path| path.contains("fill=\"none\""))
        .expect("a line");
    let point = |words: &str| {
        let (x, y) = words.split_once(' ').unwrap();
        (x.parse().unwrap(), y.parse().unwrap())
    };
    let points = path.split('"').next().unwrap();
    points.split(['M', 'L']).map(point).collect()
}

/// Where the words stand.
fn height_of(picture: &str, words: &str) -> f32 {
    let at = picture.find(&format!(">{words}<")).expect(words);
    let y = picture[..at].rsplit(" y=\"").next().unwrap();
    y.split('"').next().unwrap().parse().unwrap()
}

/// The frames that have a cell.
fn captions(strip: &str) -> Vec<usize> {
    let words = after_each(strip, "fill=\"#2b2a28\">frame ", '<');
    words
        .iter()
        .filter_map(|words| words.parse().ok())
        .collect()
}

/// Of each cell with changes: all of them, and those that are shown.
fn changes(strip: &str) -> Vec<(Vec<&str>, String)> {
    let groups = strip.split("<g><title>").skip(1);
    let change = |group| -> (Vec<&str>, String) {
        let (all, rest) = str::split_once(group, "</title>").unwrap();
        let texts = after_each(rest.split("</g>").next().unwrap(), "<text ", '<');
        let lines: Vec<&str> = texts.iter().map(|t| t.split_once('>').unwrap().1).collect();
        (all.split(", ").collect(), lines.join(" "))
    };
    groups.map(change).collect()
}
