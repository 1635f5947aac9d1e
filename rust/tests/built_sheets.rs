//! Many sheets, built by chance: each is accepted, its view tells the rows that were asked for, and each plays.

#[path = "common/random.rs"]
mod random;

use dovebolt::{
    Address, Animation, AnimationBuilder, BookBuilder, BookView, Channel, ContentBuilder,
    ContentKind, Curve, MaterialChannel, PaneChannel, Player, SheetBuilder, SheetView,
};
use random::Random;

const SHEETS: u64 = 600;

/// Some are names of the book's panes, some of its materials.
const NAMES: [&str; 5] = ["Root", "Logo", "Glow", "ß", "a name of 24 bytes: abcd"];

fn book() -> Vec<u8> {
    let mut book = BookBuilder::new();
    for label in ["Root", "Logo", "ß"] {
        book.pane(label);
    }
    for name in ["Glow", "Logo"] {
        book.material(name);
    }
    book.build().unwrap()
}

/// Frame, value and slope.
type Point = (f32, f32, f32);

/// The rows that were asked for.
#[derive(Default)]
struct Asked {
    animations: Vec<(u16, bool, Option<String>)>,
    contents: Vec<(u16, ContentKind, String)>,
    tracks: Vec<(u16, Address, Curve, Vec<Point>)>,
    textures: Vec<String>,
}

/// Frames that never fall, some of them equal.
fn frames(random: &mut Random) -> Vec<f32> {
    let frame = |random: &mut Random| match random.below(4) {
        0 => random.finite(),
        1 => random.one_of(&[-0.0, 0.0]),
        _ => random.below(40) as f32 - 4.0,
    };
    let mut frames: Vec<f32> = (0..random.below(6)).map(|_| frame(random)).collect();
    frames.sort_by(|a, b| a.partial_cmp(b).unwrap());
    frames
}

/// Adds a track of a curve and keys by chance.
fn add_track<C: Into<Address> + Copy>(
    random: &mut Random,
    content: &mut ContentBuilder<C>,
    channel: C,
    asked: &mut Asked,
) {
    let curve = random.one_of(&[Curve::Constant, Curve::Step, Curve::Hermite]);
    let frames = frames(random);
    let points: Vec<Point> = match curve {
        Curve::Constant => {
            let values: Vec<f32> = frames.iter().map(|_| random.finite()).collect();
            content.constant(channel, &values);
            values.iter().map(|value| (0.0, *value, 0.0)).collect()
        }
        Curve::Step => {
            let value = |random: &mut Random| random.below(65_536) as f32;
            let keys: Vec<(f32, f32)> = frames.iter().map(|f| (*f, value(random))).collect();
            content.step(channel, &keys);
            keys.iter().map(|(f, value)| (*f, *value, 0.0)).collect()
        }
        Curve::Hermite => {
            let keys = frames
                .iter()
                .map(|f| (*f, random.finite(), random.finite()));
            let keys: Vec<Point> = keys.collect();
            content.hermite(channel, &keys);
            keys
        }
    };
    let number = asked.contents.len() as u16 - 1;
    asked.tracks.push((number, channel.into(), curve, points));
}

fn add_content(random: &mut Random, animation: &mut AnimationBuilder, asked: &mut Asked) {
    let name = random.one_of(&NAMES);
    let kinds = [
        ContentKind::Pane,
        ContentKind::PaneExt,
        ContentKind::Material,
        ContentKind::User,
    ];
    let kind = random.one_of(&kinds);
    let number = asked.animations.len() as u16 - 1;
    asked.contents.push((number, kind, name.into()));
    let tracks = random.below(4);
    match kind {
        ContentKind::Material => {
            let mut content = animation.material(name);
            for _ in 0..tracks {
                let channel = random.one_of(&MaterialChannel::ALL);
                add_track(random, &mut content, channel, asked);
            }
            let address = Address::new(b"FLMC", random.below(256) as u8, 0);
            add_track(random, &mut content.by_address(), address, asked);
        }
        ContentKind::User => {
            let mut content = animation.content(kind, name);
            let code = random.one_of(&[b"FLEU", b"FLPA", b"\0\xFFab"]);
            let address = Address::new(code, random.below(256) as u8, random.below(256) as u8);
            add_track(random, &mut content, address, asked);
        }
        _ => {
            let mut content = match kind {
                ContentKind::Pane => animation.pane(name),
                _ => animation.pane_ext(name),
            };
            for _ in 0..tracks {
                let channel = random.one_of(&PaneChannel::ALL);
                add_track(random, &mut content, channel, asked);
            }
        }
    }
}

fn sheet(random: &mut Random) -> (Vec<u8>, Asked) {
    let (mut sheet, mut asked) = (SheetBuilder::new(), Asked::default());
    for _ in 0..1 + random.below(8) {
        let frames = random.one_of(&[0, 1, 16, 65_535]);
        let looping = random.below(2) == 1;
        let next = (random.below(2) == 1).then(|| random.one_of(&NAMES));
        let animation = sheet.animation(frames);
        if looping {
            animation.looping();
        }
        if let Some(next) = next {
            animation.next(next);
        }
        let next = next.map(String::from);
        asked.animations.push((frames, looping, next));
        for _ in 0..random.below(8) {
            add_content(random, animation, &mut asked);
        }
    }
    for _ in 0..random.below(8) {
        let name = random.one_of(&NAMES);
        sheet.texture(name);
        asked.textures.push(name.into());
    }
    (sheet.build().unwrap(), asked)
}

fn told_as_asked(sheet: SheetView, asked: &Asked) {
    let animation = |a: Animation| (a.frames, a.looping, a.next.map(|name| name.to_string()));
    let animations: Vec<_> = sheet.animations().map(animation).collect();
    assert_eq!(animations, asked.animations);
    let contents = sheet
        .contents()
        .map(|c| (c.animation, c.kind, c.name.to_string()));
    assert_eq!(Vec::from_iter(contents), asked.contents);
    let textures = sheet.textures().map(|t| t.to_string());
    assert_eq!(Vec::from_iter(textures), asked.textures);

    let (_, keys) = Player::load(sheet.bytes()).unwrap();
    assert_eq!(sheet.tracks().len(), asked.tracks.len());
    for (track, (content, address, curve, points)) in sheet.tracks().zip(&asked.tracks) {
        let row = (track.content, track.address, track.curve);
        assert_eq!(row, (*content, *address, *curve));
        let row = (track.animation, track.kind, track.name.to_string());
        assert_eq!(row, asked.contents[usize::from(*content)]);
        let loaded = track
            .keys()
            .map(|n| [keys.frames[n], keys.values[n], keys.slopes[n]]);
        let loaded: Vec<[u32; 3]> = loaded.map(|key| key.map(f32::to_bits)).collect();
        let points = points
            .iter()
            .map(|(f, v, s)| [f, v, s].map(|x| x.to_bits()));
        assert_eq!(loaded, Vec::from_iter(points));
    }
}

fn is_texture(channel: Channel) -> bool {
    use MaterialChannel::*;
    matches!(channel, Channel::Material(Texture0 | Texture1 | Texture2))
}

/// Plays each animation. What is overridden is what its tracks reach, texture rows that the sheet doesn't have apart. Gives the
/// number of overridden channels.
fn overridden(sheet: SheetView, book: BookView) -> usize {
    let (mut player, keys) = Player::load(sheet.bytes()).unwrap();
    let mut count = 0;
    for animation in sheet.animations() {
        player.play(sheet.bytes(), Some(animation.number)).unwrap();
        player.tick(sheet.bytes(), 0.25, 8.0).unwrap();
        let all = player.read_all(sheet.bytes(), book.bytes(), &keys).unwrap();
        assert_eq!(all.marks.len(), book.channel_count());
        let mut marks = vec![0; book.channel_count()];
        for track in sheet.tracks_of(animation.number) {
            if let Some((number, channel)) = book.reached(&track) {
                let place = book.place(number, channel);
                marks[place] = if is_texture(channel) {
                    all.marks[place]
                } else {
                    1
                };
            }
        }
        assert_eq!(all.marks, marks);
        count += marks.iter().filter(|mark| **mark == 1).count();
    }
    count
}

#[test]
fn many_sheets() {
    let book = book();
    let book = BookView::of(&book).unwrap();
    let (mut tracks, mut marks) = (0, 0);
    for seed in 0..SHEETS {
        let (sheet, asked) = sheet(&mut Random::new(seed));
        let sheet = SheetView::of(&sheet).unwrap();
        told_as_asked(sheet, &asked);
        tracks += asked.tracks.len();
        marks += overridden(sheet, book);
    }
    // Chance gave enough of both to see something.
    assert!(
        tracks > 10_000 && marks > 4_000,
        "{tracks} tracks, {marks} overridden channels"
    );
}
