//! What differing keys reach: refusals in order, and marks in cases by hand.

use dovebolt::{
    Address, BookBuilder, Channel, ContentKind, Keys, MaterialChannel, PaneChannel, PaneTouched,
    Player, Refusal, SheetBuilder, SheetView, Touched, example, touched, touched_into,
};

const UNTOUCHED: PaneTouched = PaneTouched {
    own: false,
    follows: false,
};
const OWN: PaneTouched = PaneTouched {
    own: true,
    follows: false,
};
const FOLLOWS: PaneTouched = PaneTouched {
    own: false,
    follows: true,
};
const BOTH: PaneTouched = PaneTouched {
    own: true,
    follows: true,
};

fn keys_of(sheet: &[u8]) -> Keys {
    Player::load(sheet).unwrap().1
}

/// The keys with the first value of each of these tracks made another.
fn edited(sheet: &[u8], tracks: &[u16]) -> Keys {
    let mut keys = keys_of(sheet);
    let view = SheetView::of(sheet).unwrap();
    for track in tracks {
        let place = view.track(*track).unwrap().keys().start;
        keys.values[place] += 1.0;
    }
    keys
}

fn marks(sheet: &[u8], book: &[u8], tracks: &[u16], animation: u16) -> Touched {
    touched(
        sheet,
        book,
        &keys_of(sheet),
        &edited(sheet, tracks),
        animation,
    )
    .unwrap()
}

/// The touched channels by pane or material.
fn channels(book: &[u8], touched: &Touched) -> Vec<(u16, Channel)> {
    let view = dovebolt::BookView::of(book).unwrap();
    let panes = view.panes().flat_map(|p| {
        let channels = touched.pane_channels(p.number);
        channels.map(move |c| (p.number, Channel::Pane(c)))
    });
    let materials = view.materials().flat_map(|m| {
        let channels = touched.material_channels(book, m.number);
        channels.map(move |c| (m.number, Channel::Material(c)))
    });
    panes.chain(materials).collect()
}

/// Sheet, book, keys before and after, animation, the length of the first output, and the refusal.
type Declined<'a> = (&'a [u8], &'a [u8], &'a Keys, &'a Keys, u16, usize, Refusal);

/// The call is declined, and leaves both outputs.
fn declines((sheet, book, before, after, animation, length, refusal): Declined) {
    let (mut channels, mut panes) = (vec![7; length], [9; 2]);
    let outputs = (&mut channels[..], &mut panes[..]);
    let answer = touched_into(sheet, book, before, after, animation, outputs.0, outputs.1);
    assert_eq!(answer, Err(refusal));
    assert_eq!((channels, panes), (vec![7; length], [9; 2]));
    if refusal != Refusal::OutputLength {
        let answer = touched(sheet, book, before, after, animation);
        assert_eq!(answer, Err(refusal));
    }
}

/// Each refusal while all later ones apply too. The book has 86 channels and 2 panes.
#[test]
fn refusals_in_order() {
    let (sheet, book) = (example::sheet(), example::book());
    let good = keys_of(&sheet);
    let mut short = good.clone();
    short.slopes.pop();
    let mut falling = good.clone();
    falling.frames[6] = -1.0;
    declines((b"", b"", &short, &short, 2, 0, Refusal::Sheet));
    declines((&sheet, b"", &short, &short, 2, 0, Refusal::Book));
    for (before, after) in [(&short, &falling), (&falling, &short)] {
        declines((&sheet, &book, before, after, 2, 0, Refusal::KeyLengths));
    }
    for (before, after) in [(&falling, &good), (&good, &falling)] {
        declines((&sheet, &book, before, after, 2, 0, Refusal::KeyRules));
    }
    for animation in [2, 65_535] {
        let refusal = Refusal::Animation;
        declines((&sheet, &book, &good, &good, animation, 0, refusal));
    }
    for length in [0, 85, 87] {
        let refusal = Refusal::OutputLength;
        declines((&sheet, &book, &good, &good, 1, length, refusal));
    }
}

/// The second output's length counts too.
#[test]
fn marks_of_panes_too_short_or_too_long() {
    let (sheet, book) = (example::sheet(), example::book());
    let good = keys_of(&sheet);
    for length in [0, 1, 3] {
        let (mut channels, mut panes) = ([7; 86], vec![9; length]);
        let answer = touched_into(&sheet, &book, &good, &good, 0, &mut channels, &mut panes);
        assert_eq!(answer, Err(Refusal::OutputLength));
        assert_eq!((channels, panes), ([7; 86], vec![9; length]));
    }
}

/// What was in the outputs doesn't stay.
#[test]
fn outputs_are_written_whole() {
    let (sheet, book) = (example::sheet(), example::book());
    let keys = keys_of(&sheet);
    let (mut channels, mut panes) = ([7; 86], [9; 2]);
    touched_into(&sheet, &book, &keys, &keys, 0, &mut channels, &mut panes).unwrap();
    assert_eq!((channels, panes), ([0; 86], [0; 2]));
}

#[test]
fn no_difference() {
    let (sheet, book) = (example::sheet(), example::book());
    for animation in [0, 1] {
        let touched = marks(&sheet, &book, &[], animation);
        assert!(!touched.any());
        assert_eq!(
            (touched.channels.len(), touched.panes.len()),
            (86, 2),
            "as long as the book says"
        );
    }
}

/// Each track of the example menu by itself: its own channel, in its own animation.
#[test]
fn one_channel() {
    let (sheet, book) = (example::sheet(), example::book());
    let own = [
        (1, Channel::Pane(PaneChannel::Visible)),
        (0, Channel::Material(MaterialChannel::Texture0)),
        (0, Channel::Material(MaterialChannel::BlackRed)),
        (1, Channel::Pane(PaneChannel::TranslateX)),
        (1, Channel::Pane(PaneChannel::Alpha)),
    ];
    for (track, own) in own.into_iter().enumerate() {
        let animation = u16::from(track == 4);
        let touched = marks(&sheet, &book, &[track as u16], animation);
        assert_eq!(channels(&book, &touched), [own]);
        let pane = matches!(own.1, Channel::Pane(_));
        assert_eq!(touched.pane(0), UNTOUCHED);
        assert_eq!(touched.pane(1), if pane { OWN } else { UNTOUCHED });
        assert!(!marks(&sheet, &book, &[track as u16], 1 - animation).any());
    }
}

/// A key that differs in its frame or its slope alone, or in a zero's sign, differs.
#[test]
fn every_bit_counts() {
    let (sheet, book) = (example::sheet(), example::book());
    let before = keys_of(&sheet);
    let edits: [fn(&mut Keys); 4] = [
        |keys| keys.frames[6] = 7.5,
        |keys| keys.slopes[5] = 1.0,
        |keys| keys.slopes[6] = -0.0,
        |keys| keys.values[5] = -0.0,
    ];
    for edit in edits {
        let mut after = before.clone();
        edit(&mut after);
        for (before, after) in [(&before, &after), (&after, &before)] {
            let touched = touched(&sheet, &book, before, after, 0).unwrap();
            assert_eq!(
                channels(&book, &touched),
                [(1, Channel::Pane(PaneChannel::TranslateX))]
            );
        }
    }
}

/// Root, Menu, Button below it, Text below that, and Side beside Menu. Menu's alpha is a factor of its children's or not.
fn family(influences: bool) -> Vec<u8> {
    let mut book = BookBuilder::new();
    book.pane("Root");
    book.pane("Menu")
        .parent("Root")
        .influences_alpha(influences);
    // Hands down what it is handed, and not its own.
    book.pane("Button").parent("Menu").influences_alpha(false);
    book.pane("Text").parent("Button");
    book.pane("Side").parent("Root");
    book.build().unwrap()
}

fn family_panes(sheet: &[u8], book: &[u8], tracks: &[u16]) -> [PaneTouched; 5] {
    let touched = marks(sheet, book, tracks, 0);
    [0, 1, 2, 3, 4].map(|pane| touched.pane(pane))
}

#[test]
fn children_follow() {
    let mut sheet = SheetBuilder::new();
    let animation = sheet.animation(8);
    let keys = [(0.0, 10.0, 0.0), (8.0, 200.0, 0.0)];
    animation
        .pane("Menu")
        .hermite(PaneChannel::Alpha, &keys)
        .step(PaneChannel::Visible, &[(0.0, 0.0)])
        .hermite(PaneChannel::TranslateX, &keys);
    animation
        .pane("Button")
        .hermite(PaneChannel::Alpha, &keys)
        .hermite(PaneChannel::LeftTopRed, &keys);
    let sheet = sheet.build().unwrap();
    let (on, off) = (family(true), family(false));
    let quiet = [UNTOUCHED; 5];
    let menu = [UNTOUCHED, OWN, UNTOUCHED, UNTOUCHED, UNTOUCHED];
    let below = [UNTOUCHED, OWN, FOLLOWS, FOLLOWS, UNTOUCHED];
    let button = [UNTOUCHED, UNTOUCHED, OWN, UNTOUCHED, UNTOUCHED];

    assert_eq!(family_panes(&sheet, &on, &[]), quiet);
    // Alpha goes on where Menu influences its children, and Button hands it on.
    assert_eq!(family_panes(&sheet, &on, &[0]), below);
    assert_eq!(family_panes(&sheet, &off, &[0]), menu);
    // Visible goes on always.
    assert_eq!(family_panes(&sheet, &on, &[1]), below);
    assert_eq!(family_panes(&sheet, &off, &[1]), below);
    // A translation is the pane's own, and so are colours.
    assert_eq!(family_panes(&sheet, &on, &[2]), menu);
    assert_eq!(family_panes(&sheet, &on, &[4]), button);
    // Button keeps its own alpha from its children.
    assert_eq!(family_panes(&sheet, &on, &[3]), button);
    let both = [UNTOUCHED, OWN, BOTH, FOLLOWS, UNTOUCHED];
    assert_eq!(family_panes(&sheet, &on, &[0, 4]), both);
}

#[test]
fn the_last_track_decides() {
    let mut sheet = SheetBuilder::new();
    let first = sheet.animation(8);
    let keys = [(0.0, 10.0, 0.0), (8.0, 200.0, 0.0)];
    first.pane("Menu").hermite(PaneChannel::SizeX, &keys);
    first.pane_ext("Menu").constant(PaneChannel::SizeX, &[3.0]);
    let second = sheet.animation(8);
    second.pane("Menu").hermite(PaneChannel::SizeX, &keys);
    let (sheet, book) = (sheet.build().unwrap(), family(true));
    let own = [(1, Channel::Pane(PaneChannel::SizeX))];
    assert!(!marks(&sheet, &book, &[0], 0).any());
    assert_eq!(channels(&book, &marks(&sheet, &book, &[1], 0)), own);
    // Of the other animation's track nothing is seen here, and of these nothing there.
    assert!(!marks(&sheet, &book, &[2], 0).any());
    assert!(!marks(&sheet, &book, &[0, 1], 1).any());
    assert_eq!(channels(&book, &marks(&sheet, &book, &[2], 1)), own);
}

#[test]
fn tracks_that_address_nothing() {
    let mut sheet = SheetBuilder::new();
    let animation = sheet.animation(8);
    animation
        .pane("Nobody")
        .constant(PaneChannel::Alpha, &[1.0]);
    animation
        .content(ContentKind::User, "Menu")
        .constant(Address::new(b"FLPA", 0, 0), &[1.0]);
    animation
        .material("Glow")
        .by_address()
        // A layer from 3 up is skipped.
        .constant(Address::new(b"FLTS", 0, 3), &[1.0])
        .constant(Address::new(b"FLPA", 0, 0), &[1.0])
        .constant(Address::new(b"FLTS", 0, 2), &[1.0]);
    let mut book = BookBuilder::new();
    book.pane("Menu");
    book.material("Glow");
    let (sheet, book) = (sheet.build().unwrap(), book.build().unwrap());
    assert!(!marks(&sheet, &book, &[0, 1, 2, 3], 0).any());
    let touched = marks(&sheet, &book, &[0, 1, 2, 3, 4], 0);
    let own = Channel::Material(MaterialChannel::Layer2TranslateU);
    assert_eq!(channels(&book, &touched), [(0, own)]);
    assert_eq!(touched.pane(0), UNTOUCHED);
}
