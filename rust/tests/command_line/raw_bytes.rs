//! Bytes from outside that a terminal would take for orders, or that are no UTF-8, never come out as they are: not from a line of
//! a list, nor from a name in a file, nor from a file's own name.

use std::ffi::OsStr;
use std::os::unix::ffi::OsStrExt;
use std::path::{Path, PathBuf};

use crate::json::Value;
use crate::program::{
    Ran, file, folder, replay, replay_json, replay_of, run, run_command, run_on, sample,
    sample_bytes, words,
};

/// Output on one line each, of characters that stand for themselves.
fn is_clean(ran: &Ran) {
    for text in [ran.text(), &ran.err] {
        let raw = text.chars().find(|c| c.is_control() && *c != '\n');
        assert_eq!(raw, None, "{text:?}");
    }
}

/// Each byte in the midst of a word, but the one that ends a line.
fn every_byte() -> impl Iterator<Item = u8> {
    (0..=255).filter(|byte| *byte != b'\n')
}

#[test]
fn of_lines() {
    let mut calls = Vec::new();
    for byte in every_byte() {
        calls.extend([b"read pane a".as_slice(), &[byte], b"b alpha\n"].concat());
        calls.extend([b"h".as_slice(), &[byte], b"p\n"].concat());
    }
    let (text, objects) = (replay(&calls), replay_json(&calls));
    assert_eq!((text.status, objects.status), (2, 2));
    is_clean(&text);
    is_clean(&objects);
    assert_eq!(text.lines().len(), 2 * 255);
    let objects = objects.objects();
    assert_eq!(objects.len(), 2 * 255);
    // In an object a control byte reads back, and a byte that is no UTF-8 is the character for that.
    let word = |n: usize| objects[n].text("word");
    assert_eq!((word(2 * 7), word(2 * 7 + 1)), ("a\u{7}b", "h\u{7}p"));
    assert!(
        objects
            .iter()
            .any(|object| object.text("word") == "a\u{1b}b")
    );
    assert!(
        objects
            .iter()
            .any(|object| object.text("word") == "a\u{fffd}b")
    );
    assert!(
        text.lines()[2 * 7].contains(", a?b: "),
        "{}",
        text.lines()[2 * 7]
    );
}

/// Sequences that are nearly UTF-8: overlong, surrogates, too large, cut short, the controls from 0x80 on; and some that are.
#[test]
fn of_nearly_utf_8() {
    let broken: [&[u8]; 9] = [
        b"\xc0\x80",
        b"\xe0\x80\x80",
        b"\xed\xa0\x80",
        b"\xf4\x90\x80\x80",
        b"\xf5\x80\x80\x80",
        b"\xe2\x82",
        b"\xc3",
        b"\xc2\x9b31m",
        b"\x80",
    ];
    for bytes in broken {
        let calls = [bytes, b"\n".as_slice()].concat();
        let (text, objects) = (replay(&calls), replay_json(&calls));
        is_clean(&text);
        is_clean(&objects);
        assert!(text.text().contains('?'), "{text:?}");
        assert!(
            objects.objects()[0].text("word").contains('\u{fffd}'),
            "{objects:?}"
        );
    }
    for word in [
        "Größe",
        "菜单",
        "🎈",
        "\u{a0}",
        "\u{7ff}\u{800}\u{ffff}\u{10000}\u{10ffff}",
    ] {
        let calls = format!("{word}\n");
        let expected = format!("error: line 1, word 1, {word}: is no call\n");
        assert_eq!(replay(&calls).text(), expected);
        assert_eq!(replay_json(&calls).objects()[0].text("word"), word);
    }
}

/// A name with an order for the terminal, a byte that is no UTF-8, a quote, a control character from 0x80 on, and a zero.
const NAME: &[u8] = b"\x1b]0;x\x07\xff\"\\\xc2\x85\0z";
/// How it is told in text, and what an object reads back as.
const AS_TEXT: &str = "?]0;x??\"\\???z";
const AS_OBJECT: &str = "\u{1b}]0;x\u{7}\u{fffd}\"\\\u{fffd}\u{fffd}\0z";

/// The sample menu with this name for the next of animation 0, for content 0 and pane 2, for content 5 and material 0 with its
/// first texture, and for texture 3.
fn named(folder: &Path) -> [PathBuf; 2] {
    let (mut sheet, mut book) = (sample_bytes("title.sheet"), sample_bytes("title.book"));
    let put = |bytes: &mut [u8], at: usize| {
        bytes[at..at + 24].fill(0);
        bytes[at..at + NAME.len()].copy_from_slice(NAME);
    };
    let content = |n: usize| 12 + 28 * 3 + 28 * n;
    let textures = content(14) + 14 * 29;
    for at in [12 + 4, content(0) + 4, content(5) + 4, textures + 24 * 3] {
        put(&mut sheet, at);
    }
    for at in [4 + 72 * 2, 4 + 72 * 12, 4 + 72 * 12 + 24] {
        put(&mut book, at);
    }
    [
        file(folder, "raw.sheet", sheet),
        file(folder, "raw.book", book),
    ]
}

fn tells_name(ran: &Ran, json: bool) -> bool {
    if !json {
        return ran.text().contains(AS_TEXT);
    }
    let is_name = |value: &Value| matches!(value, Value::Text(t) if t.contains(AS_OBJECT));
    let objects = ran.objects();
    objects
        .iter()
        .flat_map(|object| &object.0)
        .any(|(_, value)| is_name(value))
}

/// In every command that prints names.
#[test]
fn of_names() {
    let folder = folder("raw_names");
    let [sheet, book] = &named(&folder);
    let of_call = [b"read pane ".as_slice(), NAME, b" translate_y\n"].concat();
    let lists: [&[u8]; 7] = [
        b"next 0\n",
        b"play 0\ntick 1 100\n",
        b"name 0 0\n",
        b"pose 0 0\nread all\n",
        b"cascade\n",
        b"pose 0 0\nread material 0 texture_0\n",
        &of_call,
    ];
    for options in [&[][..], &["--json"]] {
        let json = !options.is_empty();
        for command in ["info", "frames"] {
            let animation = if command == "frames" { Some("0") } else { None };
            let files = [command.as_ref(), sheet.as_os_str(), book.as_ref()];
            let ran = run_command(words(&files).args(animation).args(options));
            assert_eq!(ran.status, 0, "{command}: {ran:?}");
            is_clean(&ran);
            assert!(tells_name(&ran, json), "{command}: {ran:?}");
        }
        for calls in lists {
            let ran = replay_of(sheet, book, calls, options);
            assert_eq!(ran.status, 0, "{ran:?}");
            is_clean(&ran);
            assert!(tells_name(&ran, json), "{ran:?}");
        }
    }
    // The sample's own book has nothing for contents 0, 5 and 12: three warnings.
    let book = sample("title.book");
    let ran = run(&["check".as_ref(), sheet.as_os_str(), book.as_ref()]);
    is_clean(&ran);
    assert_eq!((ran.status, ran.lines().len()), (0, 5));
    assert!(tells_name(&ran, false));
}

/// A file's name, and a word of the command line.
#[test]
fn of_the_command_line() {
    let folder = folder("raw_paths");
    let path = OsStr::from_bytes(b"\x1b[31m\xff.sheet");
    std::fs::copy(sample("title.sheet"), folder.join(path)).unwrap();
    let none = OsStr::from_bytes(b"none\x07\n\x9b");
    for list in [
        [OsStr::new("check"), path],
        [OsStr::new("info"), path],
        [OsStr::new("check"), none],
    ] {
        let ran = run_command(words(&list).current_dir(&folder));
        is_clean(&ran);
        let ran = run_command(words(&list).arg("--json").current_dir(&folder));
        is_clean(&ran);
        let name = if list[1] == path {
            "\u{1b}[31m\u{fffd}.sheet"
        } else {
            "none\u{7}\n\u{fffd}"
        };
        let object = &ran.objects()[0];
        let key = if object.has("file") { "file" } else { "sheet" };
        assert_eq!(object.text(key), name);
    }
    let ran = run(&[none]);
    is_clean(&ran);
    assert_eq!(
        ran.err,
        "error: none???: is no command; menu_cli help lists them\n"
    );
}

/// A file is opened whatever UTF-8 its name is, control bytes too. One whose name is no UTF-8 can't be: it is told so, for reading
/// and for writing, and what stands there stays.
#[test]
fn of_the_names_of_files() {
    let folder = folder("file_names");
    let (told, raw) = (
        OsStr::from_bytes(b"\x1b\xc3\xbc.sheet"),
        OsStr::from_bytes(b"\xff.sheet"),
    );
    for name in [told, raw] {
        std::fs::copy(sample("title.sheet"), folder.join(name)).unwrap();
    }
    let check = |name| run_command(words(&[OsStr::new("check"), name]).current_dir(&folder));
    let ran = check(told);
    assert_eq!((ran.status, ran.text()), (0, "?ü.sheet: ok, a sheet\n"));
    let ran = check(raw);
    assert_eq!(
        (ran.status, ran.err.as_str()),
        (2, "error: ?.sheet: cannot be opened\n")
    );

    let calls = "play 0\nkey 0 1 9.5 64\nsave ";
    for (name, answered) in [
        (told, "3 save ?ü.sheet: saved "),
        (raw, "error: ?.sheet: cannot be opened for writing"),
    ] {
        let list = [calls.as_bytes(), name.as_bytes(), b"\n"].concat();
        let mut command = words(&[
            OsStr::new("replay"),
            sample("title.sheet").as_ref(),
            sample("title.book").as_ref(),
        ]);
        let ran = run_on(command.current_dir(&folder), &list);
        assert!(ran.lines()[2].contains(answered), "{ran:?}");
        let edited = std::fs::read(folder.join(name)).unwrap() != sample_bytes("title.sheet");
        assert_eq!(edited, name == told);
    }
}
