//! `frames --json` against this package's whole readings and cascades, number by number and bit by bit.

use dovebolt::{BookView, Channel, Keys, MaterialChannel, PaneChannel, Player, SheetView};

use crate::json::Object;
use crate::program::{run, sample, sample_bytes};

/// What a line of `frames` tells.
#[derive(Debug, PartialEq)]
enum Fact {
    Number(u32),
    Shown(bool),
    Row(usize, String),
    Level(usize),
    /// A pane of the cascade, with the bits of its alpha.
    Pane(bool, u32),
}

/// The frame, the name of the pane or material, the channel's name, and the fact.
type Line = (usize, String, Option<String>, Fact);

/// The bits of a number, all NaNs being one.
fn bits(x: f32) -> u32 {
    if x.is_nan() {
        f32::NAN.to_bits()
    } else {
        x.to_bits()
    }
}

fn fact(object: &Object) -> Fact {
    if object.has("number") {
        Fact::Number(bits(object.float("number")))
    } else if object.has("alpha") {
        Fact::Pane(object.flag("shown"), bits(object.float("alpha")))
    } else if object.has("row") {
        Fact::Row(object.count("row"), object.text("texture").into())
    } else if object.has("level") {
        Fact::Level(object.count("level"))
    } else {
        Fact::Shown(object.flag("shown"))
    }
}

fn line(object: &Object) -> Line {
    let owner = if object.has("pane") {
        "pane"
    } else {
        "material"
    };
    let channel = object.has("channel").then(|| object.text("channel").into());
    let name = format!("{owner} {}", object.text(owner));
    (object.count("frame"), name, channel, fact(object))
}

struct Menu<'a> {
    sheet: &'a [u8],
    view: SheetView<'a>,
    book: BookView<'a>,
    keys: &'a Keys,
}

impl Menu<'_> {
    /// What an overridden channel reads, in the form that the program has for it.
    fn fact(&self, channel: Channel, x: f32) -> Fact {
        use MaterialChannel::*;
        match channel {
            Channel::Pane(PaneChannel::Visible) => Fact::Shown(x != 0.0),
            Channel::Material(Texture0 | Texture1 | Texture2) => {
                let name = self.view.textures().nth(x as usize).unwrap();
                Fact::Row(x as usize, name.to_string())
            }
            Channel::Material(c) if c >= BlackRed => Fact::Level(x as usize),
            _ => Fact::Number(bits(x)),
        }
    }

    /// The lines of one frame, in the program's order.
    fn lines(&self, player: &Player, frame: usize) -> Vec<Line> {
        let book = self.book.bytes();
        let all = player.read_all(self.sheet, book, self.keys).unwrap();
        let pane_channels = || (0..28).map(|n| Channel::Pane(PaneChannel::from_number(n).unwrap()));
        let material_channels =
            || (0..30).map(|n| Channel::Material(MaterialChannel::from_number(n).unwrap()));
        let mut lines = Vec::new();
        let mut add = |name: String, number: u16, channel: Channel| {
            let x = all.get(self.book.place(number, channel));
            let fact = x.map(|x| self.fact(channel, x));
            lines.extend(fact.map(|f| (frame, name, Some(channel.name().into()), f)));
        };
        for pane in self.book.panes() {
            pane_channels().for_each(|c| add(format!("pane {}", pane.label), pane.number, c));
        }
        for material in self.book.materials() {
            let name = || format!("material {}", material.name);
            material_channels().for_each(|c| add(name(), material.number, c));
        }
        let cascade = player.cascade(self.sheet, book, self.keys).unwrap();
        for (pane, state) in self.book.panes().zip(cascade) {
            let fact = Fact::Pane(state.visible, bits(state.alpha));
            lines.push((frame, format!("pane {}", pane.label), None, fact));
        }
        lines
    }
}

#[test]
fn as_the_package_reads_them() {
    let (sheet, book) = (sample_bytes("title.sheet"), sample_bytes("title.book"));
    let (mut player, keys) = Player::load(&sheet).unwrap();
    let (view, book) = (SheetView::of(&sheet).unwrap(), BookView::of(&book).unwrap());
    let menu = Menu {
        sheet: &sheet,
        view,
        book,
        keys: &keys,
    };
    let paths = [sample("title.sheet"), sample("title.book")];
    assert_eq!(view.animations().len(), 3);
    for animation in view.animations() {
        let mut expected = Vec::new();
        for frame in 0..animation.frames {
            player
                .pose(&sheet, Some(animation.number), frame.into())
                .unwrap();
            expected.extend(menu.lines(&player, frame.into()));
        }
        let number = animation.number.to_string();
        let list = [
            "frames".as_ref(),
            paths[0].as_os_str(),
            paths[1].as_os_str(),
        ];
        let ran = run(&[&list[..], &[number.as_ref(), "--json".as_ref()]].concat());
        assert_eq!((ran.status, ran.err.as_str()), (0, ""));
        let objects = ran.objects();
        let head = &objects[0];
        assert_eq!(head.count("animation"), animation.number.into());
        assert_eq!(head.count("frames"), animation.frames.into());
        assert_eq!(head.flag("looping"), animation.looping);
        let next = head.has("next").then(|| head.text("next").to_owned());
        assert_eq!(next, animation.next.map(|name| name.to_string()));
        let lines = Vec::from_iter(objects[1..].iter().map(line));
        assert_eq!(lines.len(), expected.len());
        for (line, expected) in lines.iter().zip(&expected) {
            assert_eq!(line, expected);
        }
    }
}

/// Frames that are asked for, both ends among them, are those of the whole animation.
#[test]
fn some_of_them() {
    let paths = [sample("title.sheet"), sample("title.book")];
    let list = [
        "frames".as_ref(),
        paths[0].as_os_str(),
        paths[1].as_os_str(),
        "1".as_ref(),
    ];
    let all = run(&list);
    let some = run(&[&list[..], &["7".as_ref(), "9".as_ref()]].concat());
    let wanted = ["frame 7 ", "frame 8 ", "frame 9 "];
    let of = |line: &&str| wanted.iter().any(|w| line.starts_with(w));
    let expected = Vec::from_iter(all.lines()[1..].iter().copied().filter(of));
    assert!(expected.len() > 3 * 12);
    assert_eq!(some.lines()[1..], expected);
    assert_eq!(some.lines()[0], all.lines()[0]);
}
