//! The exit status: 0 accepted, 1 declined, 2 wrong use or a file that can't be read or written; and how the starter is found.

use std::ffi::OsStr;
use std::fs;
use std::os::unix::fs::symlink;
use std::path::Path;
use std::process::Command;

use crate::program::{
    Ran, file, folder, program, replay, root, run, run_command, sample, sample_bytes, starter,
    words,
};

/// A sheet and a book that are declined, in a folder of their own.
fn damaged(folder: &Path) {
    let (mut sheet, mut book) = (sample_bytes("title.sheet"), sample_bytes("title.book"));
    sheet[14] = 7;
    book[4 + 28] = 3;
    file(folder, "damaged.sheet", sheet);
    file(folder, "damaged.book", book);
    fs::copy(sample("title.sheet"), folder.join("title.sheet")).unwrap();
    fs::copy(sample("title.book"), folder.join("title.book")).unwrap();
}

#[test]
fn of_each_command() {
    let folder = folder("status");
    damaged(&folder);
    let statuses = [
        ("help", 0),
        ("help refusals", 0),
        ("--help", 0),
        ("-h", 0),
        ("version", 0),
        ("--version", 0),
        ("", 2),
        ("check title.sheet", 0),
        ("check title.book", 0),
        ("check title.sheet title.book", 0),
        ("check damaged.sheet", 1),
        ("check damaged.book", 1),
        ("check none.sheet", 2),
        ("check", 2),
        ("info title.sheet", 0),
        ("info title.sheet title.book", 0),
        ("info damaged.sheet", 1),
        ("info title.sheet damaged.book", 1),
        ("info none.sheet", 2),
        ("info title.sheet none.book", 2),
        ("frames title.sheet title.book 0", 0),
        ("frames title.sheet title.book 2 3 4", 0),
        ("frames damaged.sheet title.book 0", 1),
        ("frames title.sheet damaged.book 0", 1),
        ("frames title.sheet title.book 3", 2),
        ("frames title.sheet title.book x", 2),
        ("frames title.sheet title.book 0 4 3", 2),
        ("reach title.sheet title.sheet title.book", 0),
        ("reach damaged.sheet title.sheet title.book", 1),
        ("reach title.sheet damaged.sheet title.book", 1),
        ("reach title.sheet title.sheet damaged.book", 1),
        ("reach none.sheet title.sheet title.book", 2),
        ("reach title.sheet none.sheet title.book", 2),
        ("reach title.sheet title.sheet none.book", 2),
        ("reach title.sheet title.sheet title.book more", 2),
        ("reach title.sheet title.sheet", 2),
        ("reach title.sheet", 2),
        ("reach", 2),
        ("replay title.sheet title.book", 0),
        ("replay damaged.sheet title.book", 1),
        ("replay title.sheet damaged.book", 1),
        ("replay title.sheet none.book", 2),
        ("fly title.sheet", 2),
        ("check --fast title.sheet", 2),
    ];
    for (line, status) in statuses {
        let list: Vec<&str> = line.split_whitespace().collect();
        for list in [&list[..], &[&list[..], &["--json"]].concat()] {
            let ran = run_command(words(list).current_dir(&folder));
            assert_eq!(ran.status, status, "menu_cli {list:?}: {ran:?}");
        }
    }
}

/// The largest of what its files come to, wherever in the list they stand.
#[test]
fn of_several_files() {
    let folder = folder("several");
    damaged(&folder);
    let lists = [
        ("title.sheet title.sheet title.sheet", 0),
        ("title.book title.sheet title.sheet", 0),
        ("title.sheet damaged.sheet title.sheet", 1),
        ("damaged.book title.sheet title.sheet", 1),
        ("none.sheet damaged.sheet title.sheet", 2),
        ("damaged.sheet title.sheet none.sheet", 2),
        ("title.sheet none.sheet title.sheet", 2),
    ];
    for (list, status) in lists {
        let list: Vec<&str> = list.split(' ').collect();
        let command = &mut words(&["check", "--json"]);
        let ran = run_command(command.args(&list).current_dir(&folder));
        assert_eq!(ran.status, status, "{list:?}");
        let objects = ran.objects();
        let files = objects.iter().map(|object| object.text("file"));
        assert_eq!(Vec::from_iter(files), list);
    }
}

#[test]
fn of_a_list_of_calls() {
    assert_eq!(replay("play 0\ntick 0.5 8\n").status, 0);
    assert_eq!(replay("undo\nplay 0\n").status, 1);
    assert_eq!(replay("hop\nplay 0\n").status, 2);
    assert_eq!(replay("undo\nhop\nundo\n").status, 2);
    assert_eq!(replay("save /none/such/folder/a.sheet\n").status, 2);
}

/// Runs the starter from a line of the shell, in which `"$@"` stands for the starter and its words.
fn shell(line: &str, list: &[&OsStr]) -> Ran {
    let mut command = Command::new("sh");
    command.args(["-c", line, "sh"]).arg(starter()).args(list);
    run_command(&mut command)
}

/// The commands that print, each with what it is run on.
fn printing<'a>(sheet: &'a Path, book: &'a Path) -> [Vec<&'a OsStr>; 5] {
    let [sheet, book]: [&OsStr; 2] = [sheet.as_ref(), book.as_ref()];
    [
        vec!["help".as_ref()],
        vec!["check".as_ref(), sheet],
        vec!["info".as_ref(), sheet, book],
        vec!["frames".as_ref(), sheet, book, "0".as_ref()],
        vec!["reach".as_ref(), sheet, sheet, book],
    ]
}

#[test]
fn of_a_full_disk() {
    let (sheet, book) = (sample("title.sheet"), sample("title.book"));
    for list in printing(&sheet, &book) {
        let ran = shell(r#""$@" > /dev/full"#, &list);
        let expected = "error: standard output: cannot be written whole\n";
        assert_eq!((ran.status, &*ran.err), (2, expected), "{list:?}");
    }
}

#[test]
fn of_closed_output() {
    let (sheet, book) = (sample("title.sheet"), sample("title.book"));
    for list in printing(&sheet, &book) {
        let ran = shell(r#""$@" >&-"#, &list);
        assert_eq!(ran.status, 2, "{list:?}");
        assert!(ran.err.starts_with("error: "), "{list:?}: {}", ran.err);
    }
}

/// A folder in place of a list of calls, and no standard input at all.
#[test]
fn of_input_that_cannot_be_read() {
    let (sheet, book) = (sample("title.sheet"), sample("title.book"));
    let list = ["replay".as_ref(), sheet.as_os_str(), book.as_os_str()];
    for line in [r#""$@" < /"#, r#""$@" <&-"#] {
        let ran = shell(line, &list);
        assert_eq!((ran.status, ran.text()), (2, ""), "{line}");
        assert!(ran.err.starts_with("error: "), "{line}: {}", ran.err);
    }
}

/// More output than a pipe holds, and a reader that takes one line of it: the program is ended by a signal, or where that is
/// ignored, its writes fail.
#[test]
fn of_a_reader_that_goes_away() {
    let (sheet, book) = (sample("title.sheet"), sample("title.book"));
    let frames = ["1", "0", "9999"].map(OsStr::new);
    let files = ["frames".as_ref(), sheet.as_os_str(), book.as_os_str()];
    let list = [files, frames].concat();
    let line = r#"{ "$@"; echo "status $?" >&2; } | head -1"#;
    for line in [line.to_owned(), format!("trap '' PIPE; {line}")] {
        let ran = shell(&line, &list);
        assert_eq!(ran.lines(), ["animation 1 frames 48 looping"]);
        assert_eq!(ran.err.lines().last(), Some("status 2"), "{ran:?}");
    }
}

#[test]
fn of_more_words_than_there_is_room_for() {
    let name = "none/".repeat(40);
    let list = vec![name.as_str(); 400];
    let ran = run_command(words(&["check"]).args(&list));
    assert_eq!((ran.status, ran.text()), (2, ""));
    assert_eq!(ran.err.lines().count(), 1);
    assert!(ran.err.starts_with("error: "), "{}", ran.err);
}

/// The status is the program's own: started by itself it ends and writes as with the starter. Nothing of the status is
/// written: descriptors but those of output and errors, which may be another program's, get nothing.
#[test]
fn the_status_is_no_output() {
    let sheet = sample("title.sheet");
    let list = ["check".as_ref(), sheet.as_os_str()];
    let ran = shell(r#""$@" 3> /dev/full 4> /dev/full"#, &list);
    assert_eq!((ran.status, ran.err.as_str()), (0, ""));
    assert_eq!(ran.lines().len(), 1);

    let folder = folder("no_output");
    damaged(&folder);
    let declined = "damaged.sheet: declined 1: the sheet breaks its layout: \
                    animation 0, looping, byte 14: is 7, may be 0 or 1\n";
    let missing = "error: none.sheet: there is no such file\n";
    let sheets = [
        ("title.sheet", 0, "title.sheet: ok, a sheet\n", ""),
        ("damaged.sheet", 1, declined, ""),
        ("none.sheet", 2, "", missing),
    ];
    for (sheet, status, out, err) in sheets {
        for command in [starter(), program()] {
            let line = r#""$@" 3> third 4> fourth"#;
            let mut shell = Command::new("sh");
            shell.args(["-c", line, "sh"]).arg(command);
            let ran = run_command(shell.args(["check", sheet]).current_dir(&folder));
            assert_eq!((ran.status, ran.text(), &*ran.err), (status, out, err));
            for name in ["third", "fourth"] {
                assert_eq!(fs::read(folder.join(name)).unwrap(), b"", "{sheet}: {name}");
            }
        }
    }
}

#[test]
fn nothing_is_built() {
    let folder = folder("not_built");
    let copy = folder.join("menu_cli");
    fs::copy(root().join("menu_cli"), &copy).unwrap();
    let ran = run_command(&mut Command::new(&copy));
    assert_eq!((ran.status, ran.text()), (2, ""));
    assert!(ran.err.starts_with("error: "), "{}", ran.err);
    assert!(
        ran.err
            .contains("run (cd crates/menu_cli && rt run -- version) first"),
        "{}",
        ran.err
    );
}

#[test]
fn from_elsewhere() {
    let folder = folder("from elsewhere");
    fs::copy(sample("title.sheet"), folder.join("title.sheet")).unwrap();
    symlink(starter(), folder.join("first link")).unwrap();
    symlink("first link", folder.join("second")).unwrap();
    let direct = run_command(words(&["check", "title.sheet"]).current_dir(&folder));
    assert_eq!(direct.lines(), ["title.sheet: ok, a sheet"]);
    for name in ["first link", "second"] {
        let mut linked = Command::new(folder.join(name));
        let ran = run_command(linked.args(["check", "title.sheet"]).current_dir(&folder));
        assert_eq!((ran.status, ran.text()), (direct.status, direct.text()));
    }
    let absolute = run(&["check".as_ref(), folder.join("title.sheet").as_os_str()]);
    assert_eq!((absolute.status, absolute.lines().len()), (0, 1));
}
