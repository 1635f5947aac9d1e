//! `save` in a list of calls: the file has the bytes that this package saves, and a file that can't be written is told.

use std::fs;
use std::path::Path;

use dovebolt::Player;

use crate::program::{Ran, folder, run_on, sample, sample_bytes, words};

/// Replays on the sample menu in a folder, where files by a relative name are saved.
fn replay_in(folder: &Path, calls: &str, options: &[&str]) -> Ran {
    let (sheet, book) = (sample("title.sheet"), sample("title.book"));
    let mut command = words(&["replay".as_ref(), sheet.as_os_str(), book.as_ref()]);
    run_on(command.args(options).current_dir(folder), calls.as_bytes())
}

#[test]
fn the_file_is_what_the_package_saves() {
    let sheet = sample_bytes("title.sheet");
    let (mut player, mut keys) = Player::load(&sheet).unwrap();
    player.play(&sheet, Some(1)).unwrap();
    player
        .key_edit(&sheet, &mut keys, 12, 1, 20.0, -160.0)
        .unwrap();
    let edited = player.save(&sheet, &keys).unwrap();
    let differ = sheet.iter().zip(&edited).filter(|(a, b)| a != b).count();
    assert_ne!(differ, 0);

    let folder = folder("saving");
    let calls = "save first.sheet\nplay 1\nkey 12 1 20 -160\nsave \"two words.sheet\"\nsave\n";
    let ran = replay_in(&folder, calls, &[]);
    assert_eq!((ran.status, ran.err.as_str()), (0, ""));
    let n = sheet.len();
    let lines = ran.lines();
    let saved = |at: usize, call: &str, file: &str, differ: usize| {
        let answer = format!("saved {n} bytes{file}, {differ} differ from the loaded sheet");
        assert_eq!(lines[at], format!("{call}: {answer}"));
    };
    saved(0, "1 save first.sheet", " in first.sheet", 0);
    let name = "\"two words.sheet\"";
    saved(3, &format!("4 save {name}"), " in two words.sheet", differ);
    saved(4, "5 save", "", differ);
    assert_eq!(fs::read(folder.join("first.sheet")).unwrap(), sheet);
    assert_eq!(fs::read(folder.join("two words.sheet")).unwrap(), edited);

    let object = &replay_in(&folder, calls, &["--json"]).objects()[3];
    assert_eq!(object.text("answer"), "saved");
    assert_eq!(object.text("file"), "two words.sheet");
    assert_eq!((object.count("bytes"), object.count("differ")), (n, differ));
}

/// The list goes on behind a file that can't be written.
#[test]
fn a_file_that_cannot_be_written() {
    let folder = folder("not_saved");
    let calls = "save none/a.sheet\nsave /dev/full\nplay 1\n";
    let ran = replay_in(&folder, calls, &[]);
    let expected = [
        "1 save none/a.sheet: error: none/a.sheet: cannot be opened for writing",
        "2 save /dev/full: error: /dev/full: cannot be written whole",
        "3 play 1: ok",
    ];
    assert_eq!((ran.status, ran.lines()), (2, expected.to_vec()));
    let objects = replay_in(&folder, calls, &["--json"]).objects();
    let answers = objects.iter().map(|object| object.text("answer"));
    assert_eq!(Vec::from_iter(answers), ["error", "error", "ok"]);
    assert_eq!(objects[0].text("file"), "none/a.sheet");
}
