//! Draws an animation: a filmstrip with a cell for each frame in which something changes, and a picture of each track with
//! its curve and its keys.
//!
//!     cargo run --example filmstrip -- ../samples/title.sheet ../samples/title.book 0 FOLDER

mod changes;
#[path = "../common/mod.rs"]
mod common;
#[path = "../drawing/mod.rs"]
mod drawing;
mod moments;
mod picture;
mod strip;
mod track;

use std::error::Error;
use std::ffi::OsString;
use std::path::Path;
use std::process::ExitCode;
use std::{env, fs};

use common::{ended, named, of_file, read};
use dovebolt::{BookView, Player, Refusal, SheetView};
use drawing::menu::Menu;

fn write(path: &Path, picture: &str) -> Result<(), String> {
    of_file(path, fs::write(path, picture))
}

/// How the names of an animation's pictures begin.
fn stem(menu: &Menu) -> String {
    format!("{}-{}", menu.name, menu.animation.number)
}

/// Draws each track that reaches the book. Of those that reach the same channel the last counts.
fn draw_tracks(
    player: &mut Player,
    menu: &Menu,
    sheet_file: &str,
    folder: &Path,
) -> Result<(), String> {
    let tracks: Vec<_> = menu
        .sheet
        .tracks_of(menu.animation.number)
        .map(|track| (track, menu.book.reached(&track)))
        .collect();
    for (track, reached) in &tracks {
        let Some(place) = reached else {
            println!("track {} addresses nothing", track.number);
            continue;
        };
        let last = tracks.iter().rfind(|(_, other)| other == reached);
        let counts = last.map_or(track, |(track, _)| track);
        let drawn = track::picture(player, menu, track, *place, counts);
        let picture = named(&format!("{sheet_file}: track {}", track.number), drawn)?;
        let name = format!("{}-track-{}.svg", stem(menu), track.number);
        write(&folder.join(name), &picture)?;
    }
    Ok(())
}

/// Draws an animation and its tracks into a folder.
fn draw(
    sheet_path: &Path,
    book_path: &Path,
    animation: &str,
    folder: &Path,
) -> Result<(), Box<dyn Error>> {
    let number = named(&format!("animation {animation:?}"), animation.parse())?;
    let [sheet_file, book_file] = [sheet_path, book_path].map(|path| path.display().to_string());
    let (sheet, book) = (read(sheet_path)?, read(book_path)?);
    let sheet = named(&sheet_file, SheetView::of(&sheet))?;
    let book = named(&book_file, BookView::of(&book))?;
    let found = sheet.animation(number).ok_or(Refusal::Animation);
    let animation = named(&format!("{sheet_file}: animation {number}"), found)?;

    let (mut player, keys) = Player::load(sheet.bytes())?;
    let name = sheet_path
        .file_stem()
        .map_or("menu".into(), |stem| stem.to_string_lossy());
    let menu = Menu {
        name: name.into_owned(),
        sheet,
        book,
        keys,
        animation,
    };
    let strip = named(&sheet_file, strip::filmstrip(&mut player, &menu))?;
    write(&folder.join(format!("{}.svg", stem(&menu))), &strip)?;
    draw_tracks(&mut player, &menu, &sheet_file, folder)?;
    Ok(())
}

fn main() -> ExitCode {
    let words: Vec<OsString> = env::args_os().skip(1).collect();
    let done = match &words[..] {
        [sheet, book, animation, folder] => {
            let [sheet, book, folder] = [sheet, book, folder].map(Path::new);
            draw(sheet, book, &animation.to_string_lossy(), folder)
        }
        _ => Err("usage: filmstrip SHEET BOOK ANIMATION FOLDER".into()),
    };
    ended("filmstrip", done)
}
