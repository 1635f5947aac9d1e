//! Writes a page for those who review a translator's edits: what was edited, what the edits reach, and what is proved
//! untouched. The page is one file of HTML that needs nothing else.
//!
//!     cargo run --example review -- OLD.sheet NEW.sheet ../samples/title.book OUT.html

#[path = "../common/mod.rs"]
mod common;
mod compare;
mod curves;
#[path = "../drawing/mod.rs"]
mod drawing;
mod edits;
mod frames;
mod head;
mod html;
mod keys_table;
mod page;
mod pair;
mod panes;
mod reached;
mod runs;
mod tracks;
mod untouched;

use std::error::Error;
use std::ffi::OsString;
use std::path::Path;
use std::process::ExitCode;
use std::{env, fs};

use common::{ended, of_file, read};
use pair::{Files, Pair};

fn review(old: &Path, new: &Path, book: &Path, out: &Path) -> Result<(), Box<dyn Error>> {
    let (old_bytes, new_bytes, book_bytes) = (read(old)?, read(new)?, read(book)?);
    let [old, new, book] = [old, new, book].map(|path| path.display().to_string());
    let files = Files { old, new, book };
    let pair = Pair::of(files, &old_bytes, &new_bytes, &book_bytes)?;
    of_file(out, fs::write(out, page::page(&pair)?))?;
    Ok(())
}

fn main() -> ExitCode {
    let words: Vec<OsString> = env::args_os().skip(1).collect();
    let done = match &words[..] {
        [old, new, book, out] => {
            let [old, new, book, out] = [old, new, book, out].map(Path::new);
            review(old, new, book, out)
        }
        _ => Err("usage: review OLD NEW BOOK OUT.html".into()),
    };
    ended("review", done)
}
