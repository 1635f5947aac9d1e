//! What differs at whole frames, as the library reads it with the keys before and with those after.

use dovebolt::{Animation, Cascaded, Channel, Channels, Name, Player, Refusal, SheetView, Touched};

use crate::drawing::menu::Menu;
use crate::drawing::unit::Unit;
use crate::pair::Pair;
use crate::panes;
use crate::runs::Runs;

/// A pane or a material of the book.
#[derive(Clone, Copy, PartialEq)]
pub enum Owner {
    Pane(u16, Name),
    Material(u16, Name),
}

/// What of it can differ.
#[derive(Clone, Copy, PartialEq)]
pub enum What {
    /// Its own channel.
    Own(Channel),
    /// What its row of the cascade has: visible and alpha under its parents.
    Shown,
    Alpha,
}

impl What {
    pub fn unit(self) -> Unit {
        match self {
            What::Own(channel) => Unit::of(channel),
            What::Shown => Unit::Visible,
            What::Alpha => Unit::Share,
        }
    }

    pub fn words(self) -> &'static str {
        match self {
            What::Own(channel) => channel.name(),
            What::Shown => "visible under its parents",
            What::Alpha => "alpha under its parents",
        }
    }
}

/// A reading at one frame, before and after; nothing where there is no override.
#[derive(Clone, Copy)]
pub struct Change {
    pub frame: usize,
    pub before: Option<f32>,
    pub after: Option<f32>,
}

impl Change {
    /// All NaNs are one.
    fn differs(&self) -> bool {
        let bits = |x: Option<f32>| x.map(|x| if x.is_nan() { f32::NAN } else { x }.to_bits());
        bits(self.before) != bits(self.after)
    }

    /// Unending where there is no difference of numbers.
    fn size(&self) -> f64 {
        let size = match (self.before, self.after) {
            (Some(before), Some(after)) => (f64::from(after) - f64::from(before)).abs(),
            _ => f64::INFINITY,
        };
        if size.is_nan() { f64::INFINITY } else { size }
    }

    /// Both readings in the unit's words: short, unless they differ in what would be cut.
    pub fn words(&self, unit: Unit, sheet: SheetView) -> [String; 2] {
        let both = [self.before, self.after].map(|x| match x {
            Some(number) => unit.words(number, sheet),
            None => ("no override".to_string(), "no override".to_string()),
        });
        let short = both.clone().map(|(_, short)| short);
        if short[0] != short[1] {
            return short;
        }
        both.map(|(exact, _)| exact)
    }
}

/// One thing that can differ, at which frames it does, and the first of its largest changes.
pub struct Line {
    pub owner: Owner,
    pub what: What,
    place: usize,
    pub frames: Runs,
    pub largest: Option<Change>,
}

impl Line {
    /// Whether it is a channel of its own, not what others hand it.
    pub fn own(&self) -> bool {
        matches!(self.what, What::Own(_))
    }

    fn add(&mut self, change: Change) {
        self.frames.push(change.frame);
        if self.largest.is_none_or(|l| l.size() < change.size()) {
            self.largest = Some(change);
        }
    }
}

/// An animation in which something is touched.
pub struct Compared<'a> {
    pub menus: [Menu<'a>; 2],
    pub lines: Vec<Line>,
    /// The frames at which some line differs.
    pub frames: Runs,
}

/// Everything that the library says of a frame.
struct Moment {
    channels: Channels,
    cascade: Vec<Cascaded>,
}

impl Moment {
    fn of(player: &mut Player, menu: &Menu, frame: usize) -> Result<Moment, Refusal> {
        let (sheet, book, keys) = (menu.sheet.bytes(), menu.book.bytes(), &menu.keys);
        player.pose(sheet, Some(menu.animation.number), frame as f32)?;
        Ok(Moment {
            channels: player.read_all(sheet, book, keys)?,
            cascade: player.cascade(sheet, book, keys)?,
        })
    }

    fn number(&self, line: &Line) -> Option<f32> {
        match line.what {
            What::Own(_) => self.channels.get(line.place),
            What::Shown => Some(f32::from(u8::from(self.cascade[line.place].visible))),
            What::Alpha => Some(self.cascade[line.place].alpha),
        }
    }
}

/// What the marks say can differ, panes first.
fn lines(pair: &Pair, touched: &Touched) -> Vec<Line> {
    let line = |owner: Owner, what: What, place: usize| Line {
        owner,
        what,
        place,
        frames: Runs::default(),
        largest: None,
    };
    let mut out = vec![];
    for pane in pair.book.panes() {
        let owner = Owner::Pane(pane.number, pane.label);
        for channel in touched.pane_channels(pane.number) {
            let own = What::Own(Channel::Pane(channel));
            out.push(line(owner, own, channel.place(pane.number)));
        }
        if !touched.pane(pane.number).follows {
            continue;
        }
        let followed = panes::followed(pair.book, touched, pane.number);
        for (what, handed) in [
            (What::Shown, followed.iter().any(|h| h.visible)),
            (What::Alpha, followed.iter().any(|h| h.alpha)),
        ] {
            out.extend(handed.then(|| line(owner, what, usize::from(pane.number))));
        }
    }
    let book = pair.book.bytes();
    for material in pair.book.materials() {
        let owner = Owner::Material(material.number, material.name);
        for channel in touched.material_channels(book, material.number) {
            let own = What::Own(Channel::Material(channel));
            out.push(line(owner, own, channel.place(book, material.number)));
        }
    }
    out
}

/// Both readings of each line at a frame.
fn changes(
    player: &mut Player,
    menus: &[Menu; 2],
    lines: &[Line],
    frame: usize,
) -> Result<Vec<Change>, Refusal> {
    let before = Moment::of(player, &menus[0], frame)?;
    let after = Moment::of(player, &menus[1], frame)?;
    let change = |line: &Line| Change {
        frame,
        before: before.number(line),
        after: after.number(line),
    };
    Ok(lines.iter().map(change).collect())
}

impl Compared<'_> {
    /// What differs at a frame.
    pub fn at(&self, player: &mut Player, frame: usize) -> Result<Vec<(&Line, Change)>, Refusal> {
        let changes = changes(player, &self.menus, &self.lines, frame)?;
        let both = self.lines.iter().zip(changes);
        Ok(both.filter(|(_, change)| change.differs()).collect())
    }
}

/// An animation frame by frame, up to the frame that ends it.
pub fn compared<'a>(pair: &Pair<'a>, animation: Animation) -> Result<Compared<'a>, Refusal> {
    let menus = pair.menus(animation);
    let mut lines = lines(pair, pair.touched(animation.number));
    let mut frames = Runs::default();
    let (mut player, _) = Player::load(pair.sheet.bytes())?;
    for frame in 0..=usize::from(animation.frames) {
        let changes = changes(&mut player, &menus, &lines, frame)?;
        let both = lines.iter_mut().zip(changes);
        let differ: Vec<_> = both.filter(|(_, change)| change.differs()).collect();
        if !differ.is_empty() {
            frames.push(frame);
        }
        differ
            .into_iter()
            .for_each(|(line, change)| line.add(change));
    }
    Ok(Compared {
        menus,
        lines,
        frames,
    })
}
