//! Plays an animation to its end and prints what changes.
//!
//!     cargo run --example play -- ../samples/title.sheet ../samples/title.book 0

mod common;

use std::env;
use std::error::Error;
use std::process::ExitCode;

use common::{ended, named, read};
use dovebolt::{
    BookView, Channel, Channels, MaterialChannel, PaneChannel, Player, Refusal, SheetView, Tick,
};

/// A looping animation never ends: this many frames of it are enough to see.
const MOST: usize = 100;

/// The channels whose number is not what it was, by pane or material and by name.
fn print_changes(book: BookView, before: Option<&Channels>, now: &Channels) {
    let panes = book
        .panes()
        .flat_map(|pane| PaneChannel::ALL.map(|c| (pane.number, Channel::Pane(c), "pane")));
    let materials = book.materials().flat_map(|material| {
        MaterialChannel::ALL.map(|c| (material.number, Channel::Material(c), "material"))
    });
    for (row, channel, of) in panes.chain(materials) {
        let place = book.place(row, channel);
        let number = now.get(place);
        if number != before.and_then(|b| b.get(place)) {
            match number {
                Some(x) => println!("    {of} {row} {channel}: {x}"),
                None => println!("    {of} {row} {channel}: no override"),
            }
        }
    }
}

fn play(sheet_file: &str, book_file: &str, animation: &str) -> Result<(), Box<dyn Error>> {
    let number = named(&format!("animation {animation:?}"), animation.parse())?;
    let (sheet, book) = (read(sheet_file)?, read(book_file)?);
    let animations = named(sheet_file, SheetView::of(&sheet))?;
    let view = named(book_file, BookView::of(&book))?;
    // To the player 65,535 is no animation, which it accepts.
    let asked = format!("{sheet_file}: animation {number}");
    let found = animations.animation(number).ok_or(Refusal::Animation);
    named(&asked, found)?;

    let (mut player, keys) = Player::load(&sheet)?;
    player.play(&sheet, Some(number))?;
    let mut before = None;
    let mut tick = Tick::Running;
    for _ in 0..MOST {
        println!("frame {}: {tick:?}", player.frame());
        let now = player.read_all(&sheet, &book, &keys)?;
        print_changes(view, before.as_ref(), &now);
        before = Some(now);
        if tick != Tick::Running {
            break;
        }
        tick = player.tick(&sheet, 1.0 / 60.0, 60.0)?;
    }
    if tick == Tick::Next {
        println!("next: {}", player.next_name(&sheet)?);
    }
    Ok(())
}

fn main() -> ExitCode {
    let words: Vec<String> = env::args().skip(1).collect();
    let done = match &words[..] {
        [sheet, book, animation] => play(sheet, book, animation),
        _ => Err("usage: play SHEET BOOK ANIMATION".into()),
    };
    ended("play", done)
}
