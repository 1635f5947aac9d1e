//! `replay`: how calls are written, and what is told of keys that are another than asked for and of lines that can't be read.

use std::io::{BufRead, BufReader, Write};
use std::process::Stdio;
use std::sync::mpsc;
use std::thread;
use std::time::Duration;

use dovebolt::{BookBuilder, Edited, Player};

use crate::program::{
    Ran, file, folder, replay, replay_json, replay_of, sample, sample_bytes, words,
};

/// The answer of each line: what stands behind `LINE CALL:`.
fn answers(ran: &Ran) -> Vec<String> {
    let behind = |line: &&str| line.split_once(": ").map(|(_, answer)| answer.to_owned());
    ran.lines().iter().filter_map(behind).collect()
}

#[test]
fn names_for_numbers() {
    let named = "play 1\nread pane Cursor translate_x\nread material M_Cursor texture_0\nresolve pane Menu\n\
                 resolve srt M_Sky 1\nname M_Logo 1\nread pane \"Cursor\" 0\n";
    let numbered = "play 1\nread pane 9 0\nread material 2 15\nresolve pane 4\nresolve srt 0 1\nname 1 1\nread pane 9 0\n";
    let (named, numbered) = (replay(named), replay(numbered));
    assert_eq!((named.status, numbered.status), (0, 0), "{named:?}");
    assert_eq!(answers(&named).len(), 7);
    assert_eq!(answers(&named), answers(&numbered));
    assert_eq!(
        named.lines()[1],
        "2 read pane Cursor translate_x: -180 0xC3340000"
    );
}

/// A label with spaces, one that is a number, and one that has what begins a comment.
#[test]
fn quotes() {
    let folder = folder("quotes");
    let mut book = BookBuilder::new();
    for (label, x) in [
        ("Root", 1.0),
        ("Two Words", 2.0),
        ("0", 3.0),
        ("a # b", 4.0),
    ] {
        book.pane(label).translation(x, 0.0, 0.0);
    }
    let book = file(&folder, "quotes.book", book.build().unwrap());
    let calls = "resolve pane 0\nresolve pane \"Two Words\"\nresolve pane \"0\"\nresolve pane \"a # b\" # a comment\n\
                 resolve pane Root\n";
    let ran = replay_of(&sample("title.sheet"), &book, calls, &["--json"]);
    assert_eq!(ran.status, 0, "{ran:?}");
    let objects = ran.objects();
    let told = objects
        .iter()
        .map(|object| (object.text("call"), object.float("translate_x")));
    let expected = [
        ("resolve pane 0", 1.0),
        ("resolve pane \"Two Words\"", 2.0),
        ("resolve pane \"0\"", 3.0),
        ("resolve pane \"a # b\"", 4.0),
        ("resolve pane Root", 1.0),
    ];
    assert_eq!(Vec::from_iter(told), expected);
}

/// Comments, lines without a call, spaces, line ends of other systems, a byte order mark, a last line without its end.
#[test]
fn lines() {
    let plain = replay("play 1\nplay 2\nnext 0\n");
    assert_eq!(
        plain.lines(),
        ["1 play 1: ok", "2 play 2: ok", "3 next 0: next Idle"]
    );
    let same = [
        "play 1 # the idle one\nplay 2 #\nnext 0 # what follows\n",
        "play 1\r\nplay 2\r\nnext 0\r\n",
        "\u{feff}play 1\nplay 2\nnext 0\n",
        "\u{feff}play 1\r\nplay 2\r\nnext 0",
        "  play \t 1  \nplay\t2\n\tnext   0",
    ];
    for calls in same {
        let ran = replay(calls);
        assert_eq!((ran.status, ran.text()), (0, plain.text()), "{calls:?}");
    }
    let ran = replay("\n# a comment\n   # another\n\r\nplay 1\n\n");
    assert_eq!((ran.status, ran.text()), (0, "5 play 1: ok\n"));
    assert_eq!(replay("").text(), "");
    // A byte order mark is skipped at the start alone.
    assert_eq!(replay("play 1\n\u{feff}play 2\n").status, 2);
}

#[test]
fn clamped_and_rounded() {
    let sheet = sample_bytes("title.sheet");
    let (mut player, mut keys) = Player::load(&sheet).unwrap();
    player.play(&sheet, Some(1)).unwrap();
    // Track 12 is Hermite and begins with key 23; track 16 is Step and begins with key 33.
    let edits = [
        (12, 1, 60.0, -90.0, "clamped"),
        (12, 1, 60.0, -90.0, "clamped"),
        (12, 1, 20.0, -90.5, ""),
        (16, 1, 30.0, 0.75, "rounded"),
        (16, 1, -5.0, 7.25, "clamped rounded"),
        (16, 1, 31.0, 65_536.0, "rounded"),
    ];
    let call = |(track, key, frame, value, _): &(u16, u16, f32, f32, &str)| {
        format!("key {track} {key} {frame} {value}\n")
    };
    let calls = format!("play 1\n{}", edits.iter().map(call).collect::<String>());
    let (text, objects) = (replay(&calls), replay_json(&calls).objects());
    for ((edit, line), object) in edits.iter().zip(&text.lines()[1..]).zip(&objects[1..]) {
        let (track, key, frame, value, held) = *edit;
        let at = usize::from(if track == 12 { 23 + key } else { 33 + key });
        let edited = player
            .key_edit(&sheet, &mut keys, track, key, frame, value)
            .unwrap();
        let answer = if edited == Edited::Unchanged {
            "unchanged"
        } else {
            "ok"
        };
        assert_eq!(object.text("answer"), answer);
        let stored = [keys.frames[at], keys.values[at], keys.slopes[at]].map(f32::to_bits);
        let told = ["frame", "value", "slope"].map(|name| object.float(name).to_bits());
        assert_eq!(told, stored, "{line}");
        let is = |word: &str| held.split(' ').any(|w| w == word);
        assert_eq!(
            (object.flag("clamped"), object.flag("rounded")),
            (is("clamped"), is("rounded")),
            "{line}"
        );
        let behind = line.rsplit_once("0x00000000").unwrap().1;
        assert_eq!(behind.trim_start(), held, "{line}");
    }
    assert_eq!(text.lines().len(), 1 + edits.len());
}

/// What a line is declined for is told by its number, its word and what is wrong, and the list goes on.
#[test]
fn lines_that_cannot_be_read() {
    let name = "is no whole number below 65,536, nor a name that fits here";
    let whole = "is no whole number below 65,536";
    let number =
        "is no number: write a decimal of at most seven digits as -12.375, or 0x and eight digits";
    let wrong = [
        ("hop", "word 1, hop: is no call".to_owned()),
        ("read pane Nobody alpha", format!("word 3, Nobody: {name}")),
        ("read pane \"9\" alpha", format!("word 3, \"9\": {name}")),
        ("read pane Cursor colour", format!("word 4, colour: {name}")),
        (
            "read pane Cursor texture_0",
            format!("word 4, texture_0: {name}"),
        ),
        (
            "read material Cursor alpha_reference",
            format!("word 3, Cursor: {name}"),
        ),
        ("play Idle", format!("word 2, Idle: {whole}")),
        ("play 65536", format!("word 2, 65536: {whole}")),
        ("tick fast 8", format!("word 2, fast: {number}")),
        ("key 12 1 3", "word 5: is missing".into()),
        ("undo now", "word 2, now: is one word too many".into()),
    ];
    for (line, expected) in wrong {
        let calls = format!("play 1\n{line}\nplay 2\n");
        let ran = replay(&calls);
        let expected = format!("error: line 2, {expected}");
        assert_eq!(ran.lines(), ["1 play 1: ok", &*expected, "3 play 2: ok"]);
        assert_eq!((ran.status, ran.err.as_str()), (2, ""));
        let objects = replay_json(&calls).objects();
        assert_eq!((objects.len(), objects[1].count("line")), (3, 2));
        assert!(
            expected.ends_with(objects[1].text("error")),
            "{:?}",
            objects[1]
        );
    }
}

/// A line has 255 bytes at most.
#[test]
fn lines_that_are_too_long() {
    let long = |bytes: usize| format!("play 1{}\nplay 2\n", " ".repeat(bytes - 6));
    let ran = replay(long(255));
    assert_eq!(
        (ran.status, ran.lines()),
        (0, vec!["1 play 1: ok", "2 play 2: ok"])
    );
    for bytes in [256, 257, 70_000, 200_000] {
        let ran = replay(long(bytes));
        assert_eq!(ran.status, 2);
        assert_eq!(
            ran.lines(),
            ["error: line 1: longer than 255 bytes", "2 play 2: ok"]
        );
    }
}

/// Each answer comes before the next line is written, as someone at a terminal needs it.
#[test]
fn answers_at_once() {
    let mut command = words(&[
        "replay".as_ref(),
        sample("title.sheet").as_os_str(),
        sample("title.book").as_ref(),
    ]);
    let mut child = command
        .stdin(Stdio::piped())
        .stdout(Stdio::piped())
        .spawn()
        .unwrap();
    let (mut calls, output) = (child.stdin.take().unwrap(), child.stdout.take().unwrap());
    let (sender, answers) = mpsc::channel();
    thread::spawn(move || {
        BufReader::new(output)
            .lines()
            .try_for_each(|line| sender.send(line.unwrap()))
    });
    let talk = [
        ("play 1", "1 play 1: ok"),
        ("undo", "2 undo: declined 11: nothing to undo"),
        ("hop", "error: line 3, word 1, hop: is no call"),
    ];
    for (call, expected) in talk {
        // In two parts: half a line is no call yet.
        let (begin, end) = call.split_at(2);
        calls.write_all(begin.as_bytes()).unwrap();
        calls.write_all(format!("{end}\n").as_bytes()).unwrap();
        let answer = answers.recv_timeout(Duration::from_secs(20));
        assert_eq!(answer.as_deref(), Ok(expected), "no answer to {call}");
    }
    drop(calls);
    assert_eq!(child.wait().unwrap().code(), Some(2));
}
