//! The example program `review`: the page that it writes, as text, and what it says of files that it can't compare.

#[path = "review/errors.rs"]
mod errors;
#[path = "common/markup.rs"]
mod markup;
#[path = "review/pages.rs"]
mod pages;
#[path = "review/told.rs"]
mod told;

use std::path::{Path, PathBuf};
use std::process::{Command, Output};
use std::{env, fs};

use dovebolt::{Edited, Player};
use markup::{after_each, well_formed};

/// A key edit: animation, track, key, frame and value.
type Edit = (u16, u16, u16, f32, f32);

/// A folder of its own.
fn folder(name: &str) -> PathBuf {
    let folder = Path::new(env!("CARGO_TARGET_TMPDIR")).join(format!("review_{name}"));
    let _ = fs::remove_dir_all(&folder);
    fs::create_dir_all(&folder).unwrap();
    folder
}

/// The sample menu's sheet and book.
fn title() -> [Vec<u8>; 2] {
    let samples = Path::new(env!("CARGO_MANIFEST_DIR")).join("../samples/title.");
    ["sheet", "book"].map(|end| fs::read(samples.with_extension(end)).unwrap())
}

/// The sheet as the package saves it after these edits.
fn edited(sheet: &[u8], edits: &[Edit]) -> Vec<u8> {
    let (mut player, mut keys) = Player::load(sheet).unwrap();
    for (animation, track, key, frame, value) in edits {
        player.pose(sheet, Some(*animation), 0.0).unwrap();
        let edit = player.key_edit(sheet, &mut keys, *track, *key, *frame, *value);
        assert_eq!(edit, Ok(Edited::Made));
    }
    player.save(sheet, &keys).unwrap()
}

/// An example is built beside this test: target/PROFILE/examples.
fn run(folder: &Path, words: &[&str]) -> Output {
    let test = env::current_exe().unwrap();
    let program = test.ancestors().nth(2).unwrap().join("examples/review");
    let mut command = Command::new(program);
    command.current_dir(folder).args(words);
    command
        .output()
        .unwrap_or_else(|e| panic!("{command:?} can't be run: {e}"))
}

/// The page for two sheets and a book, which is well-formed and whole.
fn page(name: &str, old: &[u8], new: &[u8], book: &[u8]) -> String {
    let folder = folder(name);
    for (file, bytes) in [("old.sheet", old), ("new.sheet", new), ("the.book", book)] {
        fs::write(folder.join(file), bytes).unwrap();
    }
    let output = run(&folder, &["old.sheet", "new.sheet", "the.book", "out.html"]);
    let said = String::from_utf8_lossy(&output.stderr).into_owned();
    assert!(output.status.success(), "{said}");
    assert_eq!((output.stdout, said), (vec![], String::new()));
    let page = fs::read_to_string(folder.join("out.html")).unwrap();
    checked(&page);
    page
}

/// What holds of every page: it is well-formed and takes nothing from elsewhere.
fn checked(page: &str) {
    let body = page.strip_prefix("<!DOCTYPE html>\n").expect("a doctype");
    well_formed(body);
    let elsewhere = [
        "http", "src=", "url(", "@import", "<script", "<link", "style=",
    ];
    for word in elsewhere {
        assert!(!page.contains(word), "{word}");
    }
    ids_are_found(page);
    readable_by_others(page);
}

/// Each id stands once, and links and labels lead to one.
fn ids_are_found(page: &str) {
    let mut ids = after_each(page, " id=\"", '"');
    let all = ids.len();
    ids.sort();
    ids.dedup();
    assert_eq!(ids.len(), all, "an id stands twice");
    for link in after_each(page, "href=\"#", '"') {
        assert!(ids.contains(&link), "#{link}");
    }
    for labels in after_each(page, "aria-labelledby=\"", '"') {
        assert!(labels.split(' ').all(|l| ids.contains(&l)), "{labels}");
    }
}

/// Headings are in order, pictures have names and descriptions, tables captions, and their heads say what they head.
fn readable_by_others(page: &str) {
    let mut before = 0;
    let levels = after_each(page, "<h", '>');
    // html, head and header are no headings.
    for level in levels.iter().filter_map(|h| h[..1].parse::<u8>().ok()) {
        assert!(level <= before + 1, "a heading {level} after {before}");
        before = level;
    }
    for picture in after_each(page, "<svg ", '>') {
        let named = picture.contains("role=\"img\" aria-labelledby=");
        let ornament = picture.contains("aria-hidden=\"true\"");
        assert!(named || ornament, "{picture}");
    }
    let tables = page.matches("<table ").count();
    assert_eq!(page.matches("<caption>").count(), tables);
    assert_eq!(page.matches("<th>").count(), 0, "a head without a scope");
}

/// The part of the page under the heading of this id.
fn part<'a>(page: &'a str, id: &str) -> &'a str {
    let start = page.find(&format!("<h2 id=\"{id}\">")).expect(id);
    let rest = &page[start..];
    &rest[..rest
        .find("</section>\n<section aria-labelledby")
        .unwrap_or(rest.len())]
}

/// The page's words, without tags.
fn words(html: &str) -> String {
    let parts = html
        .split('<')
        .map(|part| part.split_once('>').map_or(part, |(_, words)| words));
    parts.collect::<String>()
}
