//! `reach` on edits by chance, held against what this package reads with both sets of keys at every whole frame.

use std::collections::BTreeMap;

use dovebolt::{
    BookView, Channel, Curve, Keys, PaneTouched, Player, Reading, SheetView, Track, touched,
};

use crate::json::Object;
use crate::program::{file, folder, sample, sample_bytes};
use crate::random::Random;
use crate::reach::{edited, reach};

const SHEETS: u64 = 24;

/// Both sets of keys of the sample menu.
struct Menu<'a> {
    sheet: SheetView<'a>,
    book: BookView<'a>,
    before: Keys,
    after: Keys,
}

/// An edit of any key, and values of any size, so that curves leave the numbers; some edits are declined.
fn edit(random: &mut Random, player: &mut Player, sheet: &[u8], keys: &mut Keys) {
    let view = SheetView::of(sheet).unwrap();
    let track = view.track(random.below(29) as u16).unwrap();
    let key = random.below(track.key_count.into()) as u16;
    player.play(sheet, Some(track.animation)).unwrap();
    let frame = random.below(200) as f32 / 4.0;
    let value = match random.below(8) {
        0 => random.finite(),
        _ => random.one_of(&[0.0, 1.0, 2.0, 3.5, 60.0, 255.0]),
    };
    if track.curve == Curve::Hermite && random.below(3) == 0 {
        player
            .slope_edit(sheet, keys, track.number, key, value)
            .unwrap();
    } else {
        player
            .key_edit(sheet, keys, track.number, key, frame, value)
            .ok();
    }
}

/// All NaNs are one.
fn bits(x: f32) -> u32 {
    if x.is_nan() { f32::NAN } else { x }.to_bits()
}

fn same(a: Reading, b: Reading) -> bool {
    match (a, b) {
        (Reading::Number(a), Reading::Number(b)) => bits(a) == bits(b),
        _ => a == b,
    }
}

/// How large a change is; any is as large as another where there is no number.
fn size(before: Reading, after: Reading) -> f32 {
    match (before, after) {
        (Reading::Number(a), Reading::Number(b)) => (b - a).abs(),
        (Reading::Level(a), Reading::Level(b)) => a.abs_diff(b).into(),
        _ => 1.0,
    }
}

fn runs(frames: &[usize]) -> Vec<[usize; 2]> {
    let mut runs: Vec<[usize; 2]> = Vec::new();
    for &frame in frames {
        match runs.last_mut() {
            Some([_, last]) if *last + 1 == frame => *last = frame,
            _ => runs.push([frame, frame]),
        }
    }
    runs
}

fn told(object: &Object, reading: Reading) {
    match reading {
        Reading::Nothing => assert_eq!(object.text("answer"), "none"),
        Reading::Number(x) => assert_eq!(bits(object.float("number")), bits(x)),
        Reading::Shown(on) => assert_eq!(object.flag("shown"), on),
        Reading::Row(row) => assert_eq!(object.count("row"), usize::from(row)),
        Reading::Level(n) => assert_eq!(object.count("level"), usize::from(n)),
    }
}

impl Menu<'_> {
    fn frames(&self, animation: u16) -> usize {
        self.sheet.animation(animation).unwrap().frames.into()
    }

    fn read(&self, player: &Player, keys: &Keys, number: u16, channel: Channel) -> Reading {
        let (sheet, book) = (self.sheet.bytes(), self.book.bytes());
        match channel {
            Channel::Pane(c) => player.read_pane(sheet, book, keys, number, c).unwrap(),
            Channel::Material(c) => player.read_material(sheet, book, keys, number, c).unwrap(),
        }
    }

    /// A player at each whole frame of an animation, its frame count itself among them.
    fn poses(&self, animation: u16) -> impl Iterator<Item = (usize, Player)> + '_ {
        let (player, _) = Player::load(self.sheet.bytes()).unwrap();
        (0..=self.frames(animation)).map(move |frame| {
            let mut player = player.clone();
            let sheet = self.sheet.bytes();
            player.pose(sheet, Some(animation), frame as f32).unwrap();
            (frame, player)
        })
    }

    fn differs(&self, track: &Track) -> bool {
        let own =
            |array: &Vec<f32>| Vec::from_iter(array[track.keys()].iter().map(|x| x.to_bits()));
        let all = |keys: &Keys| [&keys.frames, &keys.values, &keys.slopes].map(own);
        all(&self.before) != all(&self.after)
    }

    /// The track that decides a channel.
    fn decider(&self, track: &Track) -> u16 {
        let reached = self.book.reached(track);
        let tracks = self.sheet.tracks_of(track.animation);
        let last = tracks
            .filter(|other| self.book.reached(other) == reached)
            .last();
        last.unwrap().number
    }

    /// The line of a track that decides its channel.
    fn holds(&self, line: &Object, track: &Track) {
        let (number, channel) = self.book.reached(track).unwrap();
        let (owner, name) = match channel {
            Channel::Pane(_) => ("pane", self.book.pane(number).unwrap().label),
            Channel::Material(_) => ("material", self.book.material(number).unwrap().name),
        };
        assert_eq!(line.text(owner), name.to_string());
        assert_eq!(line.text("channel"), channel.name());
        let mut frames = Vec::new();
        let mut largest: Option<(f32, usize, Reading, Reading)> = None;
        for (frame, player) in self.poses(track.animation) {
            let [old, new] =
                [&self.before, &self.after].map(|keys| self.read(&player, keys, number, channel));
            if same(old, new) {
                continue;
            }
            frames.push(frame);
            let size = size(old, new);
            let above = |other: f32| !other.is_nan() && (size.is_nan() || size > other);
            if largest.is_none_or(|(other, ..)| above(other)) {
                largest = Some((size, frame, old, new));
            }
        }
        assert_eq!(line.pairs("frames"), runs(&frames), "{line:?}");
        let Some((size, frame, old, new)) = largest else {
            return assert!(!line.has("at") && !line.has("change"), "{line:?}");
        };
        assert_eq!(line.count("at"), frame, "{line:?}");
        told(line.inner("before"), old);
        told(line.inner("after"), new);
        let sized = matches!(old, Reading::Number(_) | Reading::Level(_));
        assert_eq!(line.has("change"), sized);
        if sized {
            assert_eq!(bits(line.float("change")), bits(size), "{line:?}");
        }
    }

    /// The lines of an animation's edited tracks; answers how many there are.
    fn tracks(&self, lines: &[&Object], animation: u16) -> usize {
        let edited = self.sheet.tracks_of(animation).filter(|t| self.differs(t));
        let edited = Vec::from_iter(edited);
        let numbers = |track: &Track| usize::from(track.number);
        assert_eq!(
            Vec::from_iter(lines.iter().map(|line| line.count("track"))),
            Vec::from_iter(edited.iter().map(numbers))
        );
        for (line, track) in lines.iter().zip(&edited) {
            if self.book.reached(track).is_none() {
                assert_eq!(line.text("changes"), "nothing");
                assert!(line.has("why") && line.text("name") == track.name.to_string());
            } else if self.decider(track) != track.number {
                let by = usize::from(self.decider(track));
                assert_eq!(
                    (line.text("changes"), line.count("decided_by")),
                    ("nothing", by)
                );
            } else {
                self.holds(line, track);
            }
        }
        edited.len()
    }

    /// The lines of the panes that follow.
    fn followers(&self, lines: &[&Object], animation: u16, panes: &[PaneTouched]) {
        let mut frames = vec![Vec::new(); panes.len()];
        for (frame, player) in self.poses(animation) {
            let [old, new] = [&self.before, &self.after].map(|keys| {
                let rows = player.cascade(self.sheet.bytes(), self.book.bytes(), keys);
                Vec::from_iter(rows.unwrap().iter().map(|r| (r.visible, bits(r.alpha))))
            });
            for pane in (0..panes.len()).filter(|&pane| old[pane] != new[pane]) {
                frames[pane].push(frame);
            }
        }
        let following = self
            .book
            .panes()
            .filter(|p| panes[usize::from(p.number)].follows);
        let expected =
            following.map(|p| (p.label.to_string(), runs(&frames[usize::from(p.number)])));
        let lines = lines
            .iter()
            .map(|l| (l.text("pane").to_owned(), l.pairs("frames")));
        assert_eq!(Vec::from_iter(lines), Vec::from_iter(expected));
    }

    /// Every line.
    fn all(&self, objects: &[Object]) {
        let (sheet, book) = (self.sheet.bytes(), self.book.bytes());
        let (mut tracks, mut panes) = (0, vec![PaneTouched::default(); self.book.panes().len()]);
        let mut channels = vec![false; self.book.channel_count()];
        for animation in 0..self.sheet.animations().len() as u16 {
            let marks = touched(sheet, book, &self.before, &self.after, animation).unwrap();
            let of = |key: &'static str| {
                let own = move |o: &&Object| {
                    o.has("animation") && o.count("animation") == animation.into()
                };
                Vec::from_iter(objects.iter().filter(own).filter(|o| o.has(key)))
            };
            tracks += self.tracks(&of("track"), animation);
            let marked = Vec::from_iter((0..panes.len() as u16).map(|pane| marks.pane(pane)));
            self.followers(&of("follows"), animation, &marked);
            for (pane, mark) in panes.iter_mut().zip(&marked) {
                pane.own |= mark.own;
                pane.follows |= mark.follows;
            }
            for (place, channel) in channels.iter_mut().enumerate() {
                *channel |= marks.channel(place);
            }
        }
        self.summary(objects, tracks, &panes, &channels);
    }

    fn summary(&self, objects: &[Object], tracks: usize, panes: &[PaneTouched], channels: &[bool]) {
        let (last, rest) = objects.split_last().unwrap();
        let lines = rest.iter().filter(|o| !o.has("animation"));
        let (own, materials): (Vec<_>, Vec<_>) = lines.partition(|o| o.has("pane"));
        for ((line, pane), mark) in own.iter().zip(self.book.panes()).zip(panes) {
            assert_eq!(line.text("pane"), pane.label.to_string());
            let flags = ["touched", "own", "follows"].map(|key| line.flag(key));
            assert_eq!(flags, [mark.any(), mark.own, mark.follows]);
        }
        let of_material = |material: u16| {
            let first = 28 * panes.len() + 30 * usize::from(material);
            channels[first..first + 30].contains(&true)
        };
        for (line, material) in materials.iter().zip(self.book.materials()) {
            assert_eq!(line.text("material"), material.name.to_string());
            assert_eq!(line.flag("touched"), of_material(material.number));
        }
        assert_eq!(
            (own.len(), materials.len()),
            (panes.len(), self.book.materials().len())
        );
        let pairs = |a: &Keys, b: &Keys, n: usize| {
            let key = |k: &Keys| [k.frames[n], k.values[n], k.slopes[n]].map(f32::to_bits);
            key(a) != key(b)
        };
        let keys = (0..self.before.frames.len()).filter(|&n| pairs(&self.before, &self.after, n));
        let touched = panes.iter().filter(|pane| pane.any()).count();
        let touched_materials = (0..3).filter(|&material| of_material(material)).count();
        let expected = BTreeMap::from([
            ("tracks", tracks),
            ("keys", keys.count()),
            (
                "touched_channels",
                channels.iter().filter(|on| **on).count(),
            ),
            ("touched_panes", touched),
            ("untouched_panes", panes.len() - touched),
            ("touched_materials", touched_materials),
            ("untouched_materials", 3 - touched_materials),
        ]);
        for (key, count) in expected {
            assert_eq!(last.count(key), count, "{key} in {last:?}");
        }
    }
}

#[test]
fn frames_changes_and_marks() {
    let (sheet, book) = (sample_bytes("title.sheet"), sample_bytes("title.book"));
    let folder = folder("reach_chance");
    for seed in 0..SHEETS {
        let mut random = Random::new(seed);
        let new = edited(|player, sheet, keys| {
            for _ in 0..1 + random.below(8) {
                edit(&mut random, player, sheet, keys);
            }
        });
        let path = file(&folder, "new.sheet", &new);
        let ran = reach(&sample("title.sheet"), &path, &["--json"]);
        assert_eq!((ran.status, ran.err.as_str()), (0, ""), "seed {seed}");
        let menu = Menu {
            sheet: SheetView::of(&sheet).unwrap(),
            book: BookView::of(&book).unwrap(),
            before: Player::load(&sheet).unwrap().1,
            after: Player::load(&new).unwrap().1,
        };
        menu.all(&ran.objects());
    }
}
