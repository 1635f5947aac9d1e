//! Two sets of keys of a menu, and what is read with each.

use super::marks::Marks;
use super::menu::{Everything, Menu, Shown};
use super::met::{Counts, Met};
use crate::probe::{apart::apart, curves};
use cases::curves::{CONSTANT, HERMITE, STEP};
use cases::format::load::Arrays;
use cases::random::Random;
use cases::reach::{self, ALPHA, FOLLOWS, OWN, Place, VISIBLE};
use cases::readings::whole::{MATERIAL_CHANNELS, PANE_CHANNELS, Reading};
use cases::readings::{addressed, published_form, whole};
use published::anim_state::AnimationState;

/// The first texture slot of a material.
const TEXTURES: usize = 15;

/// Curves are asked at so many frames outside the reach of an edited key.
const OUTSIDE: usize = 8;

pub struct Pair<'a> {
    pub menu: &'a Menu,
    pub before: &'a Arrays,
    pub after: &'a Arrays,
    pub old: &'a Everything,
    pub new: &'a Everything,
}

/// What is wrong, in words.
type Checked = Result<(), String>;

fn require(holds: bool, what: impl FnOnce() -> String) -> Checked {
    if holds { Ok(()) } else { Err(what()) }
}

impl Pair<'_> {
    /// Holds the marks of every animation against the plain definition and against what
    /// differs.
    pub fn check(&self, counts: &mut Counts) -> Checked {
        let mut differs = false;
        for animation in self.menu.animations() {
            let (refusal, marks) = Marks::ours(self.menu, self.before, self.after, animation);
            require(refusal == 0, || format!("declined by {refusal}"))?;
            let plain = Marks::plain(self.menu, self.before, self.after, animation);
            require(marks == plain, || {
                format!("animation {animation}: marks {marks:?}, plainly {plain:?}")
            })?;
            differs |= self.only_marked(animation, &marks, counts)?;
            self.tracks(animation, &marks, counts)?;
        }
        let changed = !self.differing().is_empty();
        counts.add(Met::NoEffect, usize::from(changed && !differs));
        counts.add(Met::Unchanged, usize::from(!changed));
        require(changed || !differs, || {
            "the same keys read differently".to_string()
        })
    }

    pub fn differing(&self) -> Vec<Place> {
        reach::differing(&self.menu.sheet, self.before, self.after)
    }

    fn frames(&self, animation: usize) -> impl Iterator<Item = (f32, &Shown, &Shown)> {
        let frames = self.menu.frames[animation].iter();
        let shown = self.old[animation].iter().zip(&self.new[animation]);
        frames.zip(shown).map(|(&x, (old, new))| (x, old, new))
    }

    /// Whether something differs while the animation is active: only what is marked.
    fn only_marked(
        &self,
        animation: usize,
        marks: &Marks,
        counts: &mut Counts,
    ) -> Result<bool, String> {
        let mut met = Differing::new(self.menu);
        for (frame, old, new) in self.frames(animation) {
            if old == new {
                continue;
            }
            met.any = true;
            let at = format!("animation {animation} frame {frame:?}");
            met.channels_at(&at, marks, old, new)?;
            met.panes_at(&at, marks, old, new)?;
            self.materials_at(&at, marks, old, new)?;
        }
        met.count(self.menu, marks, counts);
        Ok(met.any)
    }

    /// A layer's numbers and a slot's name follow the material's channels.
    fn materials_at(&self, at: &str, marks: &Marks, old: &Shown, new: &Shown) -> Checked {
        let panes = PANE_CHANNELS * self.menu.book.panes.len();
        for row in 0..old.srts.len() {
            let (material, of) = (row / 3, row % 3);
            let own = &marks.channels[panes + MATERIAL_CHANNELS * material..];
            let layer = own[5 * of..5 * of + 5].contains(&1);
            require(layer || old.srts[row] == new.srts[row], || {
                format!("{at}: material {material} layer {of} differs and has no mark")
            })?;
            let slot = own[TEXTURES + of] == 1;
            require(slot || old.names[row] == new.names[row], || {
                format!("{at}: material {material} texture {of} differs and has no mark")
            })?;
        }
        Ok(())
    }

    /// The track that decides a marked channel is apart at the frames at which the channel
    /// differs, and, where one key alone differs, only within that key's reach.
    fn tracks(&self, animation: usize, marks: &Marks, counts: &mut Counts) -> Checked {
        let edited = self.differing();
        for (channel, &mark) in marks.channels.iter().enumerate() {
            let Some(track) = self.menu.deciding[animation][channel].filter(|_| mark == 1) else {
                continue;
            };
            for (frame, old, new) in self.frames(animation) {
                let differs = differs(&old.channels, &new.channels, channel);
                let bytes = self.menu.bytes();
                let given = apart(bytes, self.before, self.after, track, frame);
                let at = || format!("animation {animation} track {track} frame {frame:?}");
                require(given == Some(differs), || {
                    format!("{}: apart {given:?}, differs {differs}", at())
                })?;
                let met = if differs { Met::Apart } else { Met::NotApart };
                counts.add(met, 1);
                if let [place] = edited[..] {
                    let can = reach::can_differ(&self.menu.sheet, self.before, place, frame);
                    require(can || !differs, || format!("{}: out of reach", at()))?;
                }
            }
        }
        Ok(())
    }

    /// The curve of a key that alone differs, at frames outside its reach.
    pub fn outside(&self, random: &mut Random, place: Place, counts: &mut Counts) -> Checked {
        let sheet = &self.menu.sheet;
        let target = &sheet.targets[place.track];
        let keys = |set| published_form::keys_of(&self.menu.with(set), target);
        let (old, new) = (keys(self.before), keys(self.after));
        for _ in 0..OUTSIDE {
            let frame = cases::curves::some::frame(random, &old);
            if reach::can_differ(sheet, self.before, place, frame) {
                continue;
            }
            counts.add(Met::Outside, 1);
            let (a, b) = (curves::answer(&old, frame), curves::answer(&new, frame));
            require(a == b, || {
                format!("{place:?} frame {frame:?}: {a:?} and {b:?}, out of reach")
            })?;
        }
        Ok(())
    }

    /// Counts what the edited keys belong to.
    pub fn count(&self, counts: &mut Counts) {
        let Menu { sheet, book, .. } = self.menu;
        for Place { track, .. } in self.differing() {
            let target = &sheet.targets[track];
            let curve = match target.curve {
                CONSTANT => Met::Constant,
                STEP => Met::Step,
                HERMITE => Met::Hermite,
                other => panic!("no curve {other}"),
            };
            counts.add(curve, 1);
            let content = &sheet.contents[usize::from(target.content)];
            let deciding = &self.menu.deciding[usize::from(content.animation)];
            let role = match addressed::channel(sheet, book, target) {
                None => Met::Nothing,
                Some(channel) if deciding[channel] == Some(track) => Met::Decides,
                Some(_) => Met::Overridden,
            };
            counts.add(role, 1);
        }
    }

    /// The published Rust reads the same, before and after, and so the same channels differ.
    pub fn rust(&self, counts: &mut Counts) -> Checked {
        let labels = published_form::labels(&self.menu.book);
        for (set, everything) in [(self.before, self.old), (self.after, self.new)] {
            let sheet = self.menu.with(set);
            for animation in self.menu.animations() {
                let info = published_form::animation(&sheet, animation);
                let frames = self.menu.frames[animation].iter();
                for (&frame, ours) in frames.zip(&everything[animation]) {
                    let state = AnimationState::evaluate(&info, frame, &labels);
                    let rust = whole::reading(&self.menu.book, &state);
                    counts.add(Met::Rust, 1);
                    require(rust == ours.channels, || {
                        format!("animation {animation} frame {frame:?}: the Rust reads {rust:?}")
                    })?;
                }
            }
        }
        Ok(())
    }
}

pub fn differs(old: &Reading, new: &Reading, channel: usize) -> bool {
    old.marks[channel] != new.marks[channel] || old.numbers[channel] != new.numbers[channel]
}

/// What differed at some frame.
struct Differing {
    any: bool,
    channels: Vec<bool>,
    /// By themselves, and under their parents; and visible or alpha of its own at a frame
    /// at which nothing does under its parents.
    own: Vec<bool>,
    cascaded: Vec<bool>,
    hidden: Vec<bool>,
}

impl Differing {
    fn new(menu: &Menu) -> Self {
        let panes = menu.book.panes.len();
        Self {
            any: false,
            channels: vec![false; addressed::channels(&menu.book)],
            own: vec![false; panes],
            cascaded: vec![false; panes],
            hidden: vec![false; panes],
        }
    }

    fn channels_at(&mut self, at: &str, marks: &Marks, old: &Shown, new: &Shown) -> Checked {
        for (channel, &mark) in marks.channels.iter().enumerate() {
            if differs(&old.channels, &new.channels, channel) {
                self.channels[channel] = true;
                require(mark == 1, || {
                    format!("{at}: channel {channel} differs and has no mark")
                })?;
            }
        }
        Ok(())
    }

    /// By itself a pane follows its own channels; its row of the cascade follows its own
    /// visible and alpha, and the row above.
    fn panes_at(&mut self, at: &str, marks: &Marks, old: &Shown, new: &Shown) -> Checked {
        for (pane, &mark) in marks.panes.iter().enumerate() {
            if old.panes[pane] != new.panes[pane] {
                self.own[pane] = true;
                let look = old.panes[pane][..2] != new.panes[pane][..2];
                self.hidden[pane] |= look && old.cascade[pane] == new.cascade[pane];
                require(mark & OWN != 0, || {
                    format!("{at}: pane {pane} differs and has no mark of its own")
                })?;
            }
            if old.cascade[pane] != new.cascade[pane] {
                self.cascaded[pane] = true;
                let own = &marks.channels[PANE_CHANNELS * pane..];
                let reached = mark & FOLLOWS != 0 || own[VISIBLE] == 1 || own[ALPHA] == 1;
                require(mark != 0 && reached, || {
                    format!("{at}: pane {pane} differs under its parents and has no mark")
                })?;
            }
        }
        Ok(())
    }

    fn count(&self, menu: &Menu, marks: &Marks, counts: &mut Counts) {
        let panes = PANE_CHANNELS * menu.book.panes.len();
        for (channel, &mark) in marks.channels.iter().enumerate() {
            counts.add(Met::Marked, usize::from(mark));
            if !self.channels[channel] {
                continue;
            }
            counts.add(Met::Differs, 1);
            match channel.checked_sub(panes) {
                None if channel % PANE_CHANNELS == VISIBLE => counts.add(Met::Visible, 1),
                None if channel % PANE_CHANNELS == ALPHA => counts.add(Met::Alpha, 1),
                Some(rest) if (TEXTURES..TEXTURES + 3).contains(&(rest % MATERIAL_CHANNELS)) => {
                    counts.add(Met::Texture, 1)
                }
                _ => {}
            }
        }
        for (pane, &mark) in marks.panes.iter().enumerate() {
            if mark & FOLLOWS != 0 {
                let alone = self.cascaded[pane] && !self.own[pane];
                counts.add(Met::Follows, 1);
                counts.add(Met::FollowsAndDiffers, usize::from(alone));
            }
            counts.add(Met::Hidden, usize::from(self.hidden[pane]));
        }
    }
}
