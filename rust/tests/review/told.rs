//! What a page tells of edits: keys, frames, spans, changes and drawings.

use dovebolt::{BookBuilder, PaneChannel, Player, SheetBuilder, example};

use crate::{edited, page, part, title, words};

#[test]
fn keys_before_and_after() {
    let [sheet, book] = title();
    let new = edited(&sheet, &[(0, 0, 1, 9.5, 64.0)]);
    let page = page("keys", &sheet, &new, &book);
    let table = part(&page, "edited");
    // One key has another frame and another value, and the same slope; its neighbours are the same.
    let cells = "<td><del>12</del></td><td><ins>9.5</ins></td><td><del>96</del></td><td><ins>64</ins></td>\
        <td colspan=\"2\" class=\"same\">0</td>";
    assert!(table.contains(cells), "{table}");
    assert_eq!(table.matches("<del>").count(), 2);
    assert_eq!(table.matches("class=\"tag\">edited<").count(), 1);
    for label in [">64 at 9.5<", ">was 96 at 12<", ">360 at 0<", ">120 at 15<"] {
        assert!(table.contains(label), "{label}");
    }
    // The dashed line is the one before.
    assert_eq!(
        table.matches("stroke-dasharray=\"7 5\"").count(),
        2,
        "one in the legend"
    );
}

/// Which frames an edit can reach: from the key before it to the key behind it.
#[test]
fn spans() {
    let [sheet, book] = title();
    let span = |animation, track, key, frame, value| {
        let new = edited(&sheet, &[(animation, track, key, frame, value)]);
        let page = page("spans", &sheet, &new, &book);
        let text = words(part(&page, "edited"));
        let (_, span) = text
            .split_once("after. The edit can reach ")
            .expect("a span");
        span.split(".\n").next().unwrap().to_string()
    };
    assert_eq!(span(0, 0, 0, 1.0, 360.0), "every frame up to 12");
    assert_eq!(span(0, 0, 1, 9.5, 64.0), "frames 0 to 15");
    assert_eq!(span(0, 0, 2, 15.0, 0.0), "every frame from 12 on");
    assert_eq!(span(1, 21, 2, 24.0, 0.0), "frames 12 to 36");
    assert_eq!(span(1, 15, 0, 0.0, 3.0), "every frame");
}

/// Whole frames that differ are just those at which the readings do, and lie in the span.
#[test]
fn frames_that_differ() {
    let [sheet, book] = title();
    let new = edited(&sheet, &[(1, 12, 1, 20.0, -160.0)]);
    let page = page("frames", &sheet, &new, &book);
    let (mut player, before) = Player::load(&sheet).unwrap();
    let (_, after) = Player::load(&new).unwrap();
    let mut differs = |frame: &usize| {
        player.pose(&sheet, Some(1), *frame as f32).unwrap();
        let [a, b] = [&before, &after].map(|keys| {
            player
                .read_pane(&sheet, &book, keys, 9, PaneChannel::TranslateX)
                .unwrap()
        });
        a != b
    };
    let frames: Vec<usize> = (0..=48).filter(|f| differs(f)).collect();
    assert_eq!(frames, (1..48).collect::<Vec<_>>());
    let reached = words(part(&page, "reached"));
    assert!(
        reached.contains("Cursor pane 9own channel translate_x1 to 47"),
        "{reached}"
    );
    assert!(reached.contains("at frame "));
    // Twelve of them are drawn, twice each.
    let drawn = part(&page, "frames");
    assert!(words(drawn).contains("47 whole frames: 1 to 47. 12 of them are drawn"));
    assert_eq!(drawn.matches("<figure class=\"frame\">").count(), 12);
    assert!(drawn.contains(">Frame 1<") && drawn.contains(">Frame 47<"));
    assert_eq!(drawn.matches(" role=\"img\" ").count(), 24);
    // A pane whose own channel differs has a thick outline in each, dashed before.
    assert_eq!(drawn.matches("stroke-width=\"2.5\"").count(), 24);
    assert_eq!(
        drawn
            .matches("stroke-width=\"2.5\" stroke-dasharray")
            .count(),
        12
    );
}

#[test]
fn largest_change() {
    let (sheet, book) = (example::sheet(), example::book());
    let new = edited(
        &sheet,
        &[
            (0, 0, 1, 6.0, 1.0),
            (0, 1, 1, 4.0, 9.0),
            (0, 2, 0, 0.0, 100.0),
        ],
    );
    let page = page("largest", &sheet, &new, &book);
    let text = words(part(&page, "reached"));
    for row in [
        "own channel visible4 to 5shown → becomes  hidden at frame 4",
        "own channel texture_04 to 8night → becomes  no override at frame 4",
        "own channel black_red0 to 8200 → becomes  100 at frame 0",
    ] {
        assert!(text.contains(row), "{row}: {text}");
    }
}

/// Whom a pane follows, and in what: an alpha is handed down by those that influence their children's, visible by all.
#[test]
fn whom_panes_follow() {
    let mut sheet = SheetBuilder::new();
    let keys = [(0.0, 100.0, 0.0), (4.0, 200.0, 0.0)];
    let animation = sheet.animation(4);
    for name in ["Loud", "Quiet"] {
        let mut pane = animation.pane(name);
        pane.hermite(PaneChannel::Alpha, &keys);
    }
    animation
        .pane("Quiet")
        .step(PaneChannel::Visible, &[(0.0, 1.0), (2.0, 0.0)]);
    let mut book = BookBuilder::new();
    book.pane("Loud");
    book.pane("Quiet").parent("Loud").influences_alpha(false);
    book.pane("Child").parent("Quiet");
    let (sheet, book) = (sheet.build().unwrap(), book.build().unwrap());
    let told = |edits: &[crate::Edit]| {
        let page = page("follow", &sheet, &edited(&sheet, edits), &book);
        let text = words(part(&page, "reached"));
        let (_, child) = text.split_once("Child pane 2").unwrap_or_default();
        let follows = child.split("follows ").skip(1);
        let names = follows.map(|f| f.chars().take_while(|c| !c.is_numeric()).collect());
        names.collect::<Vec<String>>()
    };
    let (loud, quiet, hides) = (
        (0, 0, 0, 0.0, 50.0),
        (0, 1, 0, 0.0, 50.0),
        (0, 2, 1, 3.0, 0.0),
    );
    assert_eq!(told(&[loud]), ["Loud"]);
    assert!(told(&[quiet]).is_empty());
    assert_eq!(told(&[hides]), ["Quiet"]);
    assert_eq!(told(&[loud, quiet, hides]), ["Quiet", "Loud"]);
}

/// An edit that shows between whole frames only.
#[test]
fn no_whole_frame() {
    let mut sheet = SheetBuilder::new();
    let keys = [(0.0, 1.0), (2.25, 5.0), (2.5, 1.0)];
    sheet
        .animation(4)
        .pane("Root")
        .step(PaneChannel::SizeX, &keys);
    let mut book = BookBuilder::new();
    book.pane("Root");
    let (sheet, book) = (sheet.build().unwrap(), book.build().unwrap());
    let page = page(
        "no_whole_frame",
        &sheet,
        &edited(&sheet, &[(0, 0, 1, 2.25, 7.0)]),
        &book,
    );
    let text = words(&page);
    assert!(text.contains("1 pane is touched, 0 are proved untouched."));
    assert!(text.contains("At no whole frame does anything differ. Between whole frames it may."));
    assert!(text.contains("none at a whole frame"));
}

/// An angle that can't be drawn is said in place of the drawing.
#[test]
fn undrawable() {
    let mut sheet = SheetBuilder::new();
    let root = sheet.animation(1);
    root.pane("Root").constant(PaneChannel::RotateZ, &[5.0]);
    let mut book = BookBuilder::new();
    book.pane("Root");
    let (sheet, book) = (sheet.build().unwrap(), book.build().unwrap());
    let page = page(
        "undrawable",
        &sheet,
        &edited(&sheet, &[(0, 0, 0, 0.0, 9000.0)]),
        &book,
    );
    let text = words(part(&page, "frames"));
    assert_eq!(
        text.matches("Can't be drawn: pane 0: refusal 12: ").count(),
        2,
        "{text}"
    );
}
