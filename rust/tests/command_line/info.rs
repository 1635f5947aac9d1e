//! `info` against this package's views of the sample menu, as objects and as text.

use std::ffi::OsStr;

use dovebolt::{BookView, Channel, Content, ContentKind, SheetView};

use crate::json::Object;
use crate::program::{Ran, file, folder, run, sample, sample_bytes};

fn info(list: &[&OsStr]) -> Ran {
    let ran = run(&[&["info".as_ref()], list].concat());
    assert_eq!((ran.status, ran.err.as_str()), (0, ""));
    ran
}

/// The objects whose first member has this key, which says what a line is about.
fn of<'a>(objects: &'a [Object], key: &str) -> Vec<&'a Object> {
    objects
        .iter()
        .filter(|object| object.0[0].0 == key)
        .collect()
}

/// The program's word for a type.
fn kind(kind: ContentKind) -> &'static str {
    match kind {
        ContentKind::Pane => "pane",
        ContentKind::Material => "material",
        ContentKind::User => "user",
        ContentKind::PaneExt => "pane_ext",
        ContentKind::StateMachine => "state_machine",
    }
}

/// What a content reaches in the book: what each of its tracks does that addresses a channel.
fn reached(sheet: SheetView, book: BookView, content: &Content) -> Option<(&'static str, usize)> {
    let own = sheet
        .tracks()
        .filter(|track| track.content == content.number);
    let reached = Vec::from_iter(own.map(|track| {
        let (number, channel) = book.reached(&track)?;
        let owner = match channel {
            Channel::Pane(_) => "pane",
            Channel::Material(_) => "material",
        };
        Some((owner, usize::from(number)))
    }));
    // A track of a layer that there isn't addresses nothing, beside others of its content.
    reached.into_iter().flatten().next()
}

#[test]
fn tracks() {
    let bytes = sample_bytes("title.sheet");
    let sheet = SheetView::of(&bytes).unwrap();
    let path = sample("title.sheet");
    let objects = info(&[path.as_ref(), "--json".as_ref()]).objects();
    let lines = of(&objects, "track");
    assert_eq!((lines.len(), sheet.tracks().len()), (29, 29));
    for (line, track) in lines.iter().zip(sheet.tracks()) {
        assert_eq!(line.count("track"), track.number.into());
        assert_eq!(line.count("animation"), track.animation.into());
        assert_eq!(line.count("content"), track.content.into());
        assert_eq!(
            (line.text("type"), line.text("name")),
            (kind(track.kind), &*track.name.to_string())
        );
        assert_eq!(
            line.text("channel"),
            track.channel().map_or("none", Channel::name)
        );
        assert_eq!(line.text("curve"), format!("{:?}", track.curve));
        assert_eq!(line.count("keys"), track.key_count.into());
        assert_eq!(line.has("code"), track.channel().is_none());
    }
    // Layer 3, and a code that is no family's.
    let nowhere = lines.iter().filter(|line| line.has("code"));
    let nowhere = nowhere.map(|l| {
        (
            l.count("track"),
            l.text("code"),
            l.count("layer"),
            l.count("raw"),
        )
    });
    assert_eq!(
        Vec::from_iter(nowhere),
        [(19, "FLTS", 3, 3), (28, "FLEU", 0, 0)]
    );
}

#[test]
fn contents() {
    let (sheet, book) = (sample_bytes("title.sheet"), sample_bytes("title.book"));
    let (sheet, book) = (SheetView::of(&sheet).unwrap(), BookView::of(&book).unwrap());
    let paths = [sample("title.sheet"), sample("title.book")];
    let objects = info(&[paths[0].as_ref(), paths[1].as_ref(), "--json".as_ref()]).objects();
    let lines = of(&objects, "content");
    assert_eq!(lines.len(), sheet.contents().len());
    let mut nothing = Vec::new();
    for (line, content) in lines.iter().zip(sheet.contents()) {
        assert_eq!(line.count("content"), content.number.into());
        assert_eq!(line.count("animation"), content.animation.into());
        assert_eq!(
            (line.text("type"), line.text("name")),
            (kind(content.kind), &*content.name.to_string())
        );
        match reached(sheet, book, &content) {
            Some((owner, row)) => {
                assert_eq!((line.text("reaches"), line.count("row")), (owner, row));
            }
            None => {
                assert_eq!((line.text("reaches"), line.has("row")), ("nothing", false));
                nothing.push(content.number);
            }
        }
    }
    assert_eq!(nothing, [12, 13]);
    // Without a book nothing is said of what is reached.
    let alone = info(&[paths[0].as_ref(), "--json".as_ref()]).objects();
    assert!(
        of(&alone, "content")
            .iter()
            .all(|line| !line.has("reaches"))
    );
}

#[test]
fn sizes_animations_and_textures() {
    let bytes = sample_bytes("title.sheet");
    let sheet = SheetView::of(&bytes).unwrap();
    let path = sample("title.sheet");
    let objects = info(&[path.as_ref(), "--json".as_ref()]).objects();
    let head = &objects[0];
    assert_eq!(head.text("sheet"), path.to_str().unwrap());
    let sizes = [
        "bytes",
        "animations",
        "contents",
        "tracks",
        "keys",
        "textures",
    ];
    let counts = [
        bytes.len(),
        sheet.animations().len(),
        sheet.contents().len(),
        sheet.tracks().len(),
        sheet.key_count(),
        sheet.textures().len(),
    ];
    assert_eq!(sizes.map(|key| head.count(key)), counts);
    let lines = of(&objects, "animation");
    assert_eq!(lines.len(), 3);
    for (line, animation) in lines.iter().zip(sheet.animations()) {
        assert_eq!(
            (line.count("frames"), line.flag("looping")),
            (animation.frames.into(), animation.looping)
        );
        let next = line.has("next").then(|| line.text("next").to_owned());
        assert_eq!(next, animation.next.map(|name| name.to_string()));
    }
    let names = of(&objects, "texture")
        .into_iter()
        .map(|line| line.text("name").to_owned());
    let expected = sheet.textures().map(|name| name.to_string());
    assert_eq!(Vec::from_iter(names), Vec::from_iter(expected));
}

#[test]
fn panes_and_materials() {
    let bytes = sample_bytes("title.book");
    let book = BookView::of(&bytes).unwrap();
    let paths = [sample("title.sheet"), sample("title.book")];
    let list = [paths[0].as_ref(), paths[1].as_ref(), "--json".as_ref()];
    let (objects, text) = (info(&list).objects(), info(&list[..2]));
    let panes = of(&objects, "pane");
    assert_eq!(panes.len(), 12);
    let written = text
        .lines()
        .into_iter()
        .filter(|line| line.starts_with("pane "));
    let mut depths = Vec::<usize>::new();
    for ((line, pane), written) in panes.iter().zip(book.panes()).zip(written) {
        assert_eq!(
            (line.count("pane"), line.text("name")),
            (pane.number.into(), &*pane.label.to_string())
        );
        let parent = line.has("parent").then(|| line.count("parent") as u16);
        assert_eq!(parent, pane.parent);
        assert_eq!(
            (line.flag("shown"), line.count("alpha")),
            (pane.visible, pane.alpha.into())
        );
        // In text the label is indented by two spaces for each pane above it.
        let depth = pane
            .parent
            .map_or(0, |parent| depths[usize::from(parent)] + 1);
        depths.push(depth);
        let begin = format!("pane {} {}{} ", pane.number, "  ".repeat(depth), pane.label);
        assert!(
            written.starts_with(&begin),
            "{written} doesn't begin with {begin}"
        );
    }
    let materials = of(&objects, "material");
    assert_eq!(materials.len(), 3);
    for (line, material) in materials.iter().zip(book.materials()) {
        assert_eq!(line.text("name"), material.name.to_string());
        let textures = ["texture_0", "texture_1", "texture_2"].map(|key| line.text(key).to_owned());
        assert_eq!(textures, material.textures.map(|name| name.to_string()));
    }
}

/// What is declined is told as `check` tells it.
#[test]
fn of_what_is_declined() {
    let folder = folder("info_declined");
    let mut sheet = sample_bytes("title.sheet");
    sheet[14] = 7;
    let path = file(&folder, "damaged.sheet", sheet);
    let [told, checked] =
        ["info", "check"].map(|command| run(&[command.as_ref(), path.as_os_str()]));
    assert_eq!((told.status, told.text()), (1, checked.text()));
}
