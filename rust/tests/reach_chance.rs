//! What differing keys reach, on menus by chance: the marks are those of the rule, and whatever is not marked reads the same.

#[path = "common/random.rs"]
mod random;

use dovebolt::{
    BookBuilder, BookView, Cascaded, Curve, Keys, MaterialChannel, PaneChannel, Player,
    ResolvedPane, SheetBuilder, SheetView, Touched, Track, touched,
};
use random::Random;

const MENUS: u64 = 150;
const FRAMES: usize = 24;

/// The last of them is in no book.
const PANES: [&str; 7] = ["Root", "A", "B", "C", "D", "E", "Nobody"];
const MATERIALS: [&str; 3] = ["M", "N", "Nothing"];

fn book(random: &mut Random) -> Vec<u8> {
    let mut book = BookBuilder::new();
    for n in 0..PANES.len() - 1 {
        let pane = book.pane(PANES[n]);
        pane.visible(random.below(4) > 0)
            .alpha(random.below(256) as u8)
            .influences_alpha(random.below(3) > 0);
        if n > 0 && random.below(6) > 0 {
            pane.parent(PANES[random.below(n)]);
        }
    }
    for name in &MATERIALS[..2] {
        book.material(name);
    }
    book.build().unwrap()
}

/// Channels that panes hand down are as likely as all others together.
fn pane_channel(random: &mut Random) -> PaneChannel {
    match random.below(4) {
        0 => PaneChannel::Visible,
        1 => PaneChannel::Alpha,
        _ => random.one_of(&PaneChannel::ALL),
    }
}

/// Some numbers are of any size, so that curves leave the finite ones.
fn hermite(random: &mut Random) -> Vec<(f32, f32, f32)> {
    let number = |random: &mut Random| match random.below(8) {
        0 => random.finite(),
        n => [0.5, -3.0, 255.0, 100.0][n % 4],
    };
    (0..3)
        .map(|n| (n as f32 * 6.0, number(random), number(random)))
        .collect()
}

fn sheet(random: &mut Random) -> Vec<u8> {
    let mut sheet = SheetBuilder::new();
    sheet.texture("day").texture("night");
    for _ in 0..2 {
        let animation = sheet.animation(16);
        for _ in 0..1 + random.below(6) {
            let name = random.one_of(&PANES);
            let (channel, other) = (pane_channel(random), pane_channel(random));
            let keys = hermite(random);
            let steps = [(0.0, random.below(2) as f32), (7.0, random.below(3) as f32)];
            let mut content = animation.pane(name);
            content.hermite(channel, &keys).step(other, &steps);
            content.constant(channel, &[0.0, 1.0, 255.0][..random.below(4)]);
            let name = random.one_of(&MATERIALS);
            let channel = random.one_of(&MaterialChannel::ALL);
            animation.material(name).hermite(channel, &keys);
        }
    }
    sheet.build().unwrap()
}

/// Another key in the place of one that keeps the key rules.
fn edit(random: &mut Random, track: &Track, keys: &mut Keys) {
    let own = track.keys();
    if own.is_empty() {
        return;
    }
    let place = own.start + random.below(own.len());
    match (track.curve, random.below(3)) {
        (Curve::Hermite, 0) => keys.frames[place] += 0.25,
        (Curve::Hermite, 1) => keys.slopes[place] = -keys.slopes[place],
        _ => keys.values[place] += 1.0,
    }
}

fn same_key(track: &Track, before: &Keys, after: &Keys) -> bool {
    let bits = |array: &[f32]| -> Vec<u32> {
        let own = &array[track.keys()];
        own.iter().map(|x| x.to_bits()).collect()
    };
    let same = |a: &[f32], b: &[f32]| bits(a) == bits(b);
    same(&before.frames, &after.frames)
        && same(&before.values, &after.values)
        && same(&before.slopes, &after.slopes)
}

/// The marks by the rule: a channel where the last of its tracks differs; a pane by its own channels, and by whether some
/// pane above hands down a touched visible, or a touched alpha that influences its children.
fn expected(
    sheet: SheetView,
    book: BookView,
    before: &Keys,
    after: &Keys,
    animation: u16,
) -> Touched {
    let mut channels = vec![0; book.channel_count()];
    for track in sheet.tracks_of(animation) {
        if let Some((number, channel)) = book.reached(&track) {
            let differs = !same_key(&track, before, after);
            channels[book.place(number, channel)] = u8::from(differs);
        }
    }
    let mark = |pane: u16, channel: PaneChannel| channels[channel.place(pane)] == 1;
    let follows = |pane: u16| {
        let parent = |pane: &u16| book.pane(*pane).and_then(|p| p.parent);
        let mut above = std::iter::successors(Some(pane), parent).skip(1);
        above.any(|q| {
            let influences = book.pane(q).unwrap().influences_alpha;
            mark(q, PaneChannel::Visible) || influences && mark(q, PaneChannel::Alpha)
        })
    };
    let pane = |pane: u16| {
        let own = PaneChannel::ALL.into_iter().any(|c| mark(pane, c));
        u8::from(own) + 2 * u8::from(follows(pane))
    };
    let panes = book.panes().map(|p| pane(p.number)).collect();
    Touched { channels, panes }
}

/// All NaNs are one.
fn bits(x: f32) -> u32 {
    if x.is_nan() { f32::NAN } else { x }.to_bits()
}

fn pane_bits(pane: &ResolvedPane, row: &Cascaded) -> Vec<u32> {
    let t = &pane.transform;
    let numbers = [
        pane.alpha,
        t.translation.x,
        t.translation.y,
        t.translation.z,
        t.rotation.x,
        t.rotation.y,
        t.rotation.z,
        t.scale.x,
        t.scale.y,
        t.size.x,
        t.size.y,
        row.alpha,
        row.influence,
    ];
    let shown = [pane.visible, row.visible].map(u32::from);
    numbers.map(bits).into_iter().chain(shown).collect()
}

/// Both readings at a frame: whatever is not marked is the same, and how much of the marked differs.
fn held(
    player: &Player,
    sheet: &[u8],
    book: BookView,
    keys: [&Keys; 2],
    touched: &Touched,
) -> usize {
    let bytes = book.bytes();
    let [before, after] = keys.map(|keys| player.read_all(sheet, bytes, keys).unwrap());
    let mut differ = 0;
    for place in 0..book.channel_count() {
        let same = before.get(place).map(bits) == after.get(place).map(bits);
        assert!(same || touched.channel(place), "channel {place}");
        differ += usize::from(!same);
    }
    let rows = keys.map(|keys| player.cascade(sheet, bytes, keys).unwrap());
    for pane in 0..book.panes().len() as u16 {
        let [a, b] = [0, 1].map(|n| {
            let own = player.resolve_pane(sheet, bytes, keys[n], pane).unwrap();
            pane_bits(&own, &rows[n][usize::from(pane)])
        });
        assert!(a == b || touched.pane(pane).any(), "pane {pane}");
        differ += usize::from(a != b);
    }
    differ
}

#[test]
fn whatever_is_not_marked_reads_the_same() {
    let (mut differ, mut marked) = (0, 0);
    for seed in 0..MENUS {
        let mut random = Random::new(seed);
        let (sheet, book) = (sheet(&mut random), book(&mut random));
        let (rows, view) = (SheetView::of(&sheet).unwrap(), BookView::of(&book).unwrap());
        let (mut player, before) = Player::load(&sheet).unwrap();
        let mut after = before.clone();
        for _ in 0..random.below(8) {
            let track = rows
                .track(random.below(rows.tracks().len()) as u16)
                .unwrap();
            edit(&mut random, &track, &mut after);
        }
        for animation in [0, 1] {
            let touched = touched(&sheet, &book, &before, &after, animation).unwrap();
            let expected = expected(rows, view, &before, &after, animation);
            assert_eq!(touched, expected, "menu {seed}");
            marked += touched.panes.iter().filter(|mark| **mark != 0).count();
            for _ in 0..FRAMES {
                let frame = random.below(1000) as f32 * 0.03125 - 5.0;
                player.pose(&sheet, Some(animation), frame).unwrap();
                differ += held(&player, &sheet, view, [&before, &after], &touched);
            }
        }
    }
    assert!(differ > 1000 && marked > 100, "{differ}, {marked}");
}
