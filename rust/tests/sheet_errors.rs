//! Every problem that keeps a sheet from being built, with its row and in its words.

use dovebolt::{Address, ContentKind, MaterialChannel, PaneChannel, Problem, Row, SheetBuilder};

const LONG: &str = "a name of 25 bytes: abcde";

/// A sheet of good rows: an animation with two contents and three tracks, and a texture.
fn good() -> SheetBuilder {
    let mut sheet = SheetBuilder::new();
    let first = sheet.animation(8);
    first
        .pane("Logo")
        .constant(PaneChannel::Visible, &[1.0])
        .step(PaneChannel::Visible, &[(0.0, 1.0)]);
    first
        .material("Glow")
        .constant(MaterialChannel::BlackRed, &[9.0]);
    sheet.texture("day");
    sheet.build().unwrap();
    sheet
}

/// What is told of a good sheet that `add` spoils.
fn told(add: impl Fn(&mut SheetBuilder), row: Row, words: &str) {
    let mut sheet = good();
    add(&mut sheet);
    let error = sheet.build().unwrap_err();
    assert_eq!((error.row(), &error.to_string()[..]), (row, words));
}

#[test]
fn next_names() {
    let row = Row::Animation(1);
    let next = |name: &'static str| {
        move |s: &mut SheetBuilder| {
            s.animation(8).next(name);
        }
    };
    let long = "animation 1, next name \"a name of 25 bytes: abcde\": the name has 25 bytes, 24 at most fit";
    told(next(LONG), row, long);
    told(
        next("Idle\0"),
        row,
        "animation 1, next name \"Idle\\0\": the name has a zero byte",
    );
    told(
        next(""),
        row,
        "animation 1, next name \"\": the name is empty",
    );
}

#[test]
fn names_of_contents() {
    let row = Row::Content(2);
    let content = |kind, name: &'static str| {
        move |s: &mut SheetBuilder| {
            s.animation(8).content(kind, name);
        }
    };
    let inside = "animation 1, content 2 (pane \"Lo\\0go\"): the name has a zero byte";
    told(content(ContentKind::Pane, "Lo\0go"), row, inside);
    // At its end it would not come back.
    let end = "animation 1, content 2 (user data \"Menu\\0\"): the name has a zero byte";
    told(content(ContentKind::User, "Menu\0"), row, end);
    for (kind, word) in [
        (ContentKind::Pane, "pane"),
        (ContentKind::PaneExt, "pane ext"),
        (ContentKind::Material, "material"),
    ] {
        let words = format!("animation 1, content 2 ({word} \"\"): the name is empty");
        told(content(kind, ""), row, &words);
    }
}

#[test]
fn names_of_textures() {
    let texture = |name: &'static str| {
        move |s: &mut SheetBuilder| {
            s.texture(name);
        }
    };
    let long = "texture 1 (\"a name of 25 bytes: abcde\"): the name has 25 bytes, 24 at most fit";
    told(texture(LONG), Row::Texture(1), long);
    told(
        texture("\0"),
        Row::Texture(1),
        "texture 1 (\"\\0\"): the name has a zero byte",
    );
}

/// 24 bytes fit, in as many letters as UTF-8 makes of them, and so do empty names that nothing is looked for by.
#[test]
fn names_that_fit() {
    let name = "ääääääääääää";
    assert_eq!(name.len(), 24);
    let mut sheet = good();
    sheet.animation(8).next(name).pane(name);
    let last = sheet.animation(8);
    last.content(ContentKind::User, "");
    last.content(ContentKind::StateMachine, "");
    sheet.texture(name).texture("");
    sheet.build().unwrap();
}

/// A key of a fourth track, of pane "Menu".
fn key_told(add: impl Fn(&mut SheetBuilder), key: usize, channel: &str, problem: &str) {
    let place = format!("animation 1, content 2 (pane \"Menu\"), track 3 ({channel}), key {key}");
    let row = Row::Key { track: 3, key };
    told(add, row, &format!("{place}: {problem}"));
}

#[test]
fn frames_that_fall() {
    let hermite = |s: &mut SheetBuilder| {
        let keys = [(1.0, 0.0, 0.0), (1.0, 0.0, 0.0), (0.5, 0.0, 0.0)];
        s.animation(8)
            .pane("Menu")
            .hermite(PaneChannel::SizeX, &keys);
    };
    key_told(hermite, 2, "size_x", "the frame falls from 1 to 0.5");
    let step = |s: &mut SheetBuilder| {
        s.animation(8)
            .pane("Menu")
            .step(PaneChannel::Visible, &[(3.0, 1.0), (-2.0, 1.0)]);
    };
    key_told(step, 1, "visible", "the frame falls from 3 to -2");
}

#[test]
fn step_values_that_are_not_whole() {
    for (value, word) in [
        (0.5, "0.5"),
        (-1.0, "-1"),
        (65_536.0, "65536"),
        (-0.0, "-0"),
    ] {
        let step = |s: &mut SheetBuilder| {
            s.animation(8)
                .pane("Menu")
                .step(PaneChannel::Visible, &[(0.0, value)]);
        };
        let problem = format!("the Step value {word} is not a whole number 0 to 65,535");
        key_told(step, 0, "visible", &problem);
    }
}

#[test]
fn numbers_that_are_not_finite() {
    let constant = |s: &mut SheetBuilder| {
        s.animation(8)
            .pane("Menu")
            .constant(PaneChannel::Alpha, &[1.0, f32::INFINITY]);
    };
    key_told(constant, 1, "alpha", "the value is not finite: inf");
    let step = |s: &mut SheetBuilder| {
        s.animation(8)
            .pane("Menu")
            .step(PaneChannel::Visible, &[(f32::NAN, 1.0)]);
    };
    key_told(step, 0, "visible", "the frame is not finite: NaN");
    let hermite = |s: &mut SheetBuilder| {
        s.animation(8)
            .pane("Menu")
            .hermite(PaneChannel::SizeX, &[(0.0, 1.0, f32::NEG_INFINITY)]);
    };
    key_told(hermite, 0, "size_x", "the slope is not finite: -inf");
}

/// A track that addresses nothing is named by its address.
#[test]
fn tracks_that_address_nothing() {
    let skipped = |s: &mut SheetBuilder| {
        let address = Address::new(b"FLTS", 3, 3);
        s.animation(8)
            .material("Glow")
            .by_address()
            .step(address, &[(0.0, 0.5)]);
    };
    let words = "animation 1, content 2 (material \"Glow\"), track 3 (FLTS 3 layer 3), key 0: \
                 the Step value 0.5 is not a whole number 0 to 65,535";
    told(skipped, Row::Key { track: 3, key: 0 }, words);
}

/// The first row that breaks a rule is told, whatever else does, and a builder can go on after it.
#[test]
fn the_first_problem() {
    let mut sheet = SheetBuilder::new();
    sheet.texture(LONG);
    let error = sheet.build().unwrap_err();
    assert_eq!(
        (error.row(), error.problem()),
        (Row::Sheet, &Problem::NoAnimation)
    );
    sheet.animation(8);
    let error = sheet.build().unwrap_err();
    let long = Problem::LongName { bytes: 25 };
    assert_eq!((error.row(), error.problem()), (Row::Texture(0), &long));
    sheet.animation(8).pane("");
    let error = sheet.build().unwrap_err();
    assert_eq!(
        (error.row(), error.problem()),
        (Row::Content(0), &Problem::EmptyName)
    );
}
