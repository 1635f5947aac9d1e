//! The command itself, `menu_cli --json reach OLD NEW BOOK`: each line that it writes
//! beside what reading everything says.

mod expected;
mod written;

use super::pair::Pair;
use crate::json;
use cases::calls::One;
use std::path::{Path, PathBuf};
use std::process::Command;

/// A line. Names are text; runs are from and to.
#[derive(Debug, PartialEq)]
enum Line {
    Changes {
        animation: usize,
        track: usize,
        channel: Named,
        frames: Vec<[usize; 2]>,
        largest: Option<Largest>,
    },
    Decided {
        animation: usize,
        track: usize,
        channel: Named,
        by: usize,
    },
    Unaddressed {
        animation: usize,
        track: usize,
    },
    Follows {
        animation: usize,
        pane: String,
        frames: Vec<[usize; 2]>,
    },
    Pane {
        name: String,
        touched: bool,
        own: bool,
        follows: bool,
    },
    Material {
        name: String,
        touched: bool,
    },
    /// Tracks and keys; touched channels, panes and materials; the other panes and
    /// materials.
    Counts([usize; 7]),
}

#[derive(Debug, PartialEq)]
struct Named {
    of_pane: bool,
    name: String,
    channel: String,
}

/// The first of the largest changes. The size, where there is one, by its bits.
#[derive(Debug, PartialEq)]
struct Largest {
    size: Option<u32>,
    at: usize,
    before: One,
    after: One,
}

/// Runs the command on the pair, and holds what it writes against the pair.
pub fn compare(pair: &Pair) -> Result<(), String> {
    let folder = std::env::temp_dir().join(format!("dovebolt_reach_{}", std::process::id()));
    std::fs::create_dir_all(&folder).expect("a folder for files");
    let file = |name: &str, bytes: &[u8]| {
        let path = folder.join(name);
        std::fs::write(&path, bytes).expect("a file is written");
        path
    };
    let files = [
        file("old.sheet", &pair.menu.with(pair.before).write()),
        file("new.sheet", &pair.menu.with(pair.after).write()),
        file("menu.book", &pair.menu.book_bytes),
    ];
    let out = run(&files);
    std::fs::remove_dir_all(&folder).expect("the folder is removed");
    let out = out?;
    let lines = out.lines().map(|line| written::line(&json::read(line)?));
    let lines: Option<Vec<Line>> = lines.collect();
    let due = expected::lines(pair);
    if lines.as_ref() == Some(&due) {
        return Ok(());
    }
    Err(format!("the command writes\n{out}and not {due:?}"))
}

fn run(files: &[PathBuf]) -> Result<String, String> {
    let root = Path::new(env!("CARGO_MANIFEST_DIR")).join("../..");
    let ran = Command::new(root.join("menu_cli"))
        .args(["--json", "reach"])
        .args(files)
        .output()
        .map_err(|e| format!("menu_cli can't be run: {e}"))?;
    let written = String::from_utf8_lossy(&ran.stdout).into_owned();
    if ran.status.success() {
        return Ok(written);
    }
    let error = String::from_utf8_lossy(&ran.stderr);
    Err(format!("menu_cli: {}, {error}{written}", ran.status))
}
