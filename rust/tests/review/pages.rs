//! Whole pages: what they name as touched and as untouched, and pages with nothing to tell.

use dovebolt::{BookView, Player, SheetView, Touched, example, touched};

use crate::markup::after_each;
use crate::{Edit, edited, page, part, title, words};

/// The logo lands elsewhere and the menu fades up earlier.
const EDITS: [Edit; 2] = [(0, 0, 1, 9.5, 64.0), (0, 4, 1, 11.0, 255.0)];

/// What the proved call says, by animation.
fn marks(old: &[u8], new: &[u8], book: &[u8]) -> Vec<Touched> {
    let [before, after] = [old, new].map(|sheet| Player::load(sheet).unwrap().1);
    let animations = SheetView::of(old).unwrap().animations();
    animations
        .map(|a| touched(old, book, &before, &after, a.number).unwrap())
        .collect()
}

/// The names before a number of this kind, as `Logo` of `Logo pane 2`.
fn named(html: &str, kind: &str) -> Vec<String> {
    let mark = format!("</bdi> <span class=\"number\">{kind} ");
    let before = html.split(&mark);
    let names = before.map(|part| part.rsplit("<bdi>").next().unwrap().to_string());
    let mut names: Vec<String> = names.collect();
    names.pop();
    names
}

/// The names of panes and materials in the parts on what is touched and on what is not are just those of the marks.
fn names_are_those_of_the_marks(page: &str, old: &[u8], new: &[u8], book: &[u8]) {
    let marks = marks(old, new, book);
    let view = BookView::of(book).unwrap();
    for (animation, touched) in marks.iter().enumerate() {
        let Some((_, part)) = page.split_once(&format!("<h3 id=\"reached-{animation}\">")) else {
            assert!(!touched.any());
            continue;
        };
        let table = part.split("</table>").next().unwrap();
        let panes = view.panes().filter(|p| touched.pane(p.number).any());
        let expected: Vec<String> = panes.map(|p| p.label.to_string()).collect();
        assert_eq!(named(table, "pane"), expected);
        let any = |number: u16| touched.material_channels(book, number).next().is_some();
        let materials = view.materials().filter(|m| any(m.number));
        let expected: Vec<String> = materials.map(|m| m.name.to_string()).collect();
        assert_eq!(named(table, "material"), expected);
    }
    let untouched = part(page, "untouched");
    let pane = |number: u16| marks.iter().any(|t| t.pane(number).any());
    let panes = view.panes().filter(|p| !pane(p.number));
    let expected: Vec<String> = panes.map(|p| p.label.to_string()).collect();
    assert_eq!(named(untouched, "pane"), expected);
    let material = |number: u16| {
        let mut all = marks.iter();
        all.any(|t| t.material_channels(book, number).next().is_some())
    };
    let materials = view.materials().filter(|m| !material(m.number));
    let expected: Vec<String> = materials.map(|m| m.name.to_string()).collect();
    assert_eq!(named(untouched, "material"), expected);
    let still = after_each(untouched, "<li>animation ", ' ');
    let expected = (0..marks.len()).filter(|n| !marks[*n].any());
    assert_eq!(still, expected.map(|n| n.to_string()).collect::<Vec<_>>());
}

#[test]
fn sample_menu() {
    let [sheet, book] = title();
    let new = edited(&sheet, &EDITS);
    let page = page("sample_menu", &sheet, &new, &book);
    names_are_those_of_the_marks(&page, &sheet, &new, &book);
    let head = words(page.split("</header>").next().unwrap());
    assert!(
        head.contains(
            "2 keys of 2 tracks were edited. 8 panes are touched, 4 are proved untouched. "
        )
    );
    assert!(head.contains("0 materials are touched, 3 are proved untouched."));
    assert!(head.contains("old.sheet") && head.contains("new.sheet") && head.contains("the.book"));
    let untouched = words(part(&page, "untouched"));
    assert!(
        untouched.contains("LogoShine pane 3, carried by Logo"),
        "{untouched}"
    );
    assert!(!untouched.contains("Sky pane 1, carried"));
    // Of the seven drawn panes that the menu and its alpha reach, each is told whom it follows.
    let reached = words(part(&page, "reached"));
    assert_eq!(
        reached
            .matches("alpha under its parents, follows Menu")
            .count(),
        6
    );
    assert_eq!(reached.matches("own channel ").count(), 2);
}

/// Each track of the sample menu, edited by itself.
#[test]
fn every_track() {
    let [sheet, book] = title();
    for track in SheetView::of(&sheet).unwrap().tracks() {
        let (_, before) = Player::load(&sheet).unwrap();
        let place = track.keys().start;
        let (frame, value) = (before.frames[place], before.values[place]);
        let new = edited(
            &sheet,
            &[(track.animation, track.number, 0, frame, value + 1.0)],
        );
        let page = page("every_track", &sheet, &new, &book);
        names_are_those_of_the_marks(&page, &sheet, &new, &book);
        let nothing = words(&page).contains("This edit changes nothing.");
        let any = marks(&sheet, &new, &book).iter().any(Touched::any);
        assert_eq!(nothing, !any, "track {}", track.number);
        assert_eq!(
            page.contains(&format!("id=\"curve-{}-title\"", track.number)),
            any
        );
    }
}

#[test]
fn no_difference() {
    let [sheet, book] = title();
    let page = page("no_difference", &sheet, &sheet, &book);
    names_are_those_of_the_marks(&page, &sheet, &sheet, &book);
    let text = words(&page);
    for words in [
        "No key differs. 0 panes are touched, 12 are proved untouched. ",
        "Nothing is touched, so that no frame is drawn.",
        "3 animations",
    ] {
        assert!(text.contains(words), "{words}");
    }
    assert_eq!(page.matches("<table ").count(), 0);
}

/// Names of any bytes: of a pane, of a material and of a texture, and those of files.
#[test]
fn odd_names() {
    const ODD: &[u8] = b"<a&b>\"'\x01\x7f\n\xff]]>\0wwwwwwwww";
    let mut files = [example::sheet(), example::book()];
    for (bytes, name) in [
        (0, "Logo"),
        (1, "Logo"),
        (0, "night"),
        (0, "Glow"),
        (1, "Glow"),
    ] {
        let bytes = &mut files[bytes];
        let field = [name.as_bytes(), &[0; 24]].concat()[..24].to_vec();
        for at in 0..bytes.len() - 23 {
            if bytes[at..at + 24] == field {
                bytes[at..at + ODD.len()].copy_from_slice(ODD);
            }
        }
    }
    let [sheet, book] = files;
    let edits = [
        (0, 0, 1, 3.0, 1.0),
        (0, 1, 1, 3.0, 1.0),
        (0, 3, 1, 8.0, 20.0),
    ];
    let page = page("odd_names", &sheet, &edited(&sheet, &edits), &book);
    let escaped = "&lt;a&amp;b&gt;&quot;&apos;\u{2401}\u{2421}\u{240a}\u{fffd}]]&gt;";
    for id in ["edited", "reached", "frames"] {
        assert!(part(&page, id).contains(escaped), "{id}");
    }
    assert!(!page.contains("<a&"));
}

#[test]
fn odd_files() {
    let folder = crate::folder("odd_files");
    let (sheet, book) = (example::sheet(), example::book());
    for (file, bytes) in [("<i>&.sheet", &sheet), ("\"'.sheet", &sheet), ("b>", &book)] {
        std::fs::write(folder.join(file), bytes).unwrap();
    }
    let output = crate::run(&folder, &["<i>&.sheet", "\"'.sheet", "b>", "out.html"]);
    assert!(output.status.success());
    let page = std::fs::read_to_string(folder.join("out.html")).unwrap();
    crate::checked(&page);
    for name in ["&lt;i&gt;&amp;.sheet", "&quot;&apos;.sheet", "b&gt;"] {
        assert!(page.contains(&format!("<bdi>{name}</bdi>")), "{name}");
    }
}
