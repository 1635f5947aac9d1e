//! Every file that is stored in crates/: the samples that the program `vectors`
//! replays, the lists of calls of `cli_lists` and the sheet and book of
//! `channel_names`, each with what the program must write. The seeds stand here,
//! so the same bytes come out each time.

use crate::{calls, curves, geometry, reached, sheets};

/// A file by its path in crates/.
pub type File = (String, Vec<u8>);

pub fn files() -> Vec<File> {
    [samples(), wrong(), damaged(), lists(), reached::files()].concat()
}

fn numbered(name: &str, files: Vec<Vec<u8>>) -> impl Iterator<Item = File> {
    let files = files.into_iter().enumerate();
    files.map(move |(i, bytes)| (format!("vectors/data/{name}_{i}"), bytes))
}

fn samples() -> Vec<File> {
    let families = [
        ("curves", curves::sample::stored(1, 512, |_, answer| answer)),
        ("sheets", sheets::sample::sheets(1)),
        ("books", sheets::sample::books(1)),
        (
            "uvs",
            geometry::sample::uv_files(1, 1000, |_, answer| answer),
        ),
        (
            "corners",
            geometry::sample::corner_files(1, 2000, |_, answer| answer),
        ),
    ];
    let files = families.into_iter();
    files
        .flat_map(|(name, files)| numbered(name, files))
        .collect()
}

/// Ten answers of each family are not the Rust's, which must be noticed.
fn wrong() -> Vec<File> {
    let families = [
        (
            "curves_wrong",
            curves::sample::stored(2, 8, curves::sample::wrong_at_times),
        ),
        ("sheets_wrong", sheets::sample::wrong_sheets(2)),
        ("books_wrong", sheets::sample::wrong_books(2)),
        (
            "uvs_wrong",
            geometry::sample::uv_files(2, 50, geometry::sample::wrong_uvs),
        ),
        (
            "corners_wrong",
            geometry::sample::corner_files(2, 50, geometry::sample::wrong_corners),
        ),
    ];
    let files = families.into_iter();
    files
        .flat_map(|(name, files)| numbered(name, files))
        .collect()
}

/// Files that are no whole sample, which must not pass for one.
fn damaged() -> Vec<File> {
    let good = &curves::sample::stored(2, 8, |_, answer| answer)[0];
    let files = [
        ("empty", Vec::new()),
        ("head_cut", good[..7].to_vec()),
        ("cut", good[..good.len() - 1].to_vec()),
        ("longer", [&good[..], &[0]].concat()),
        ("miscounted", changed(good, 4, 65)),
        ("unknown_family", changed(good, 0, 255)),
    ];
    let files = files.into_iter();
    files
        .map(|(name, bytes)| (format!("vectors/data/{name}"), bytes))
        .collect()
}

/// The bytes with one of them changed.
fn changed(bytes: &[u8], at: usize, to: u8) -> Vec<u8> {
    let mut bytes = bytes.to_vec();
    bytes[at] = to;
    bytes
}

fn lists() -> Vec<File> {
    let mut files = Vec::new();
    let mut answers = Vec::new();
    for (i, list) in calls::stored::lists(1).enumerate() {
        let name = |kind: &str| format!("list_{i}.{kind}");
        answers.extend(format!("{}:\n", name("calls")).into_bytes());
        answers.extend(list.answers);
        let parts = [
            ("sheet", list.sheet),
            ("book", list.book),
            ("calls", list.calls.into_bytes()),
        ];
        for (kind, bytes) in parts {
            files.push((format!("cli_lists/data/{}", name(kind)), bytes));
        }
    }
    files.push(("cli_lists/stdout".to_string(), answers));
    files
}
