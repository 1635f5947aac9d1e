//! The rows that views tell, against those that the example menu is made of, and what has no view.

use dovebolt::{
    Animation, BookView, ContentKind, Curve, Horizontal, Name, Player, Refusal, SheetView, Srt,
    Vector2f, Vertical, example,
};

fn name(text: &str) -> Name {
    let mut name = Name([0; 24]);
    name.0[..text.len()].copy_from_slice(text.as_bytes());
    name
}

#[test]
fn the_example_sheet() {
    let bytes = example::sheet();
    let sheet = SheetView::of(&bytes).unwrap();
    assert_eq!((sheet.bytes(), sheet.key_count()), (&bytes[..], 9));
    let animation = |number, frames, looping, next: Option<&str>| Animation {
        number,
        frames,
        looping,
        next: next.map(name),
    };
    let animations = [
        animation(0, 8, false, Some("Idle")),
        animation(1, 60, true, None),
    ];
    assert_eq!(Vec::from_iter(sheet.animations()), animations);
    assert_eq!(sheet.animation(1), Some(animations[1]));
    assert_eq!(sheet.animation(2), None);

    let contents = sheet
        .contents()
        .map(|c| (c.number, c.animation, c.kind, c.name.to_string()));
    let content = |number, animation, kind, name: &str| (number, animation, kind, name.to_string());
    let expected = [
        content(0, 0, ContentKind::Pane, "Logo"),
        content(1, 0, ContentKind::Material, "Glow"),
        content(2, 0, ContentKind::Pane, "Logo"),
        content(3, 1, ContentKind::Pane, "Logo"),
    ];
    assert_eq!(Vec::from_iter(contents), expected);
    assert_eq!(Vec::from_iter(sheet.textures()), ["day", "night"].map(name));
}

/// The tracks as the example's documentation lists them.
#[test]
fn the_example_tracks() {
    let bytes = example::sheet();
    let sheet = SheetView::of(&bytes).unwrap();
    let tracks = sheet.tracks().map(|t| {
        let channel = t.channel().unwrap().name();
        ((t.animation, t.content), channel, t.curve, t.keys())
    });
    let expected = [
        ((0, 0), "visible", Curve::Step, 0..2),
        ((0, 1), "texture_0", Curve::Step, 2..4),
        ((0, 1), "black_red", Curve::Constant, 4..5),
        ((0, 2), "translate_x", Curve::Hermite, 5..7),
        ((1, 3), "alpha", Curve::Hermite, 7..9),
    ];
    assert_eq!(Vec::from_iter(tracks), expected);
    let numbers = |animation| Vec::from_iter(sheet.tracks_of(animation).map(|t| t.number));
    assert_eq!(
        (numbers(0), numbers(1), numbers(2)),
        (vec![0, 1, 2, 3], vec![4], vec![])
    );
    assert_eq!(sheet.track(4).map(|t| t.number), Some(4));
    assert_eq!(sheet.track(5), None);
}

#[test]
fn the_example_panes() {
    let bytes = example::book();
    let book = BookView::of(&bytes).unwrap();
    assert_eq!((book.bytes(), book.channel_count()), (&bytes[..], 86));
    let [root, logo] = [0, 1].map(|number| book.pane(number).unwrap());
    assert_eq!(Vec::from_iter(book.panes()), [root, logo]);
    assert_eq!(book.pane(2), None);
    assert_eq!(
        (root.number, root.label, root.parent),
        (0, name("Root"), None)
    );
    assert_eq!(
        (logo.number, logo.label, logo.parent),
        (1, name("Logo"), Some(0))
    );
    assert_eq!(
        (logo.visible, logo.influences_alpha, logo.alpha),
        (true, true, 51)
    );
    assert_eq!(
        (logo.horizontal, logo.vertical),
        (Horizontal::Center, Vertical::Center)
    );
    // With nothing selected, resolving takes the book's numbers.
    let sheet = example::sheet();
    let (player, keys) = Player::load(&sheet).unwrap();
    for pane in [root, logo] {
        let resolved = player.resolve_pane(&sheet, &bytes, &keys, pane.number);
        assert_eq!(pane.transform, resolved.unwrap().transform);
    }
}

#[test]
fn the_example_material() {
    let bytes = example::book();
    let book = BookView::of(&bytes).unwrap();
    let glow = book.material(0).unwrap();
    assert_eq!(Vec::from_iter(book.materials()), [glow]);
    assert_eq!(book.material(1), None);
    assert_eq!((glow.number, glow.name), (0, name("Glow")));
    assert_eq!(glow.textures, ["plain", "mask", ""].map(name));
    let srt = |from: f32| Srt {
        translate: Vector2f {
            x: from,
            y: from + 1.0,
        },
        rotate: from + 2.0,
        scale: Vector2f {
            x: from + 3.0,
            y: from + 4.0,
        },
    };
    assert_eq!(glow.srts, [srt(1.0), srt(6.0), srt(11.0)]);
}

/// There is no view of what the proved code declines: a byte too short, too long, or a padding byte that is not zero.
#[test]
fn no_view_of_what_is_declined() {
    let (sheet, book) = (example::sheet(), example::book());
    assert_eq!(SheetView::of(&sheet[1..]), Err(Refusal::Sheet));
    assert_eq!(
        SheetView::of(&[&sheet[..], &[0]].concat()),
        Err(Refusal::Sheet)
    );
    assert_eq!(SheetView::of(&[]), Err(Refusal::Sheet));
    let mut padding = sheet.clone();
    padding[10] = 1;
    assert_eq!(SheetView::of(&padding), Err(Refusal::Sheet));
    let mut keys = sheet.clone();
    let slope = keys.len() - 4;
    keys[slope..].copy_from_slice(&f32::INFINITY.to_le_bytes());
    assert_eq!(SheetView::of(&keys), Err(Refusal::KeyRules));

    assert_eq!(BookView::of(&book[..book.len() - 1]), Err(Refusal::Book));
    assert_eq!(
        BookView::of(&[&book[..], &[0]].concat()),
        Err(Refusal::Book)
    );
    assert_eq!(BookView::of(&[]), Err(Refusal::Book));
    let mut origin = book.clone();
    origin[4 + 28] = 3;
    assert_eq!(BookView::of(&origin), Err(Refusal::Book));
}
