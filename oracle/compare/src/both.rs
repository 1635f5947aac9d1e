//! A list of calls by name: the plain machine and the plain player beside the proved
//! one, each answer and each state held against the other at once.

use crate::ours::Ours;
use cases::calls::held::Held;
use cases::calls::player::{Drag, Player};
use cases::calls::spoil::Spoil;
use cases::calls::walk::{Step, Walk};
use cases::calls::{Answer, Call, Request, Told};
use cases::curves::HERMITE;
use cases::format::sheet::{Animation, Content, Sheet, Target};
use cases::random::Random;
use cases::sheets::damage;

/// The middle key of the base's first track: its frame and its value. Its slope is 0.
pub const MIDDLE: (f32, f32) = (4.0, -2.5);

/// An edit of the base's last Hermite key, no two alike.
pub fn edit(n: usize) -> Call {
    key_edit(0, 2, 8.0 + n as f32 / 256.0, n as f32)
}

pub struct Both {
    pub walk: Walk,
    pub ours: Ours,
}

impl Both {
    pub fn load(sheet: &Sheet) -> Self {
        let (_, book) = damage::base_pair();
        let walk = Walk::new(Random::new(0), sheet, &book, 0);
        let ours = Ours::load(&walk.held.sheet_bytes);
        Self { walk, ours }
    }

    /// The sheet that is good, with its first animation selected. Its first track is a
    /// Hermite curve of frames 0, 4, 8, its second a Step of 0, 2, 2, and its third a
    /// Constant of the second animation.
    pub fn base() -> Self {
        Self::play(&damage::sheet::base())
    }

    /// A sheet with its first animation selected.
    pub fn play(sheet: &Sheet) -> Self {
        let mut both = Self::load(sheet);
        both.accept(Call::Play(0));
        both
    }

    pub fn held(&self) -> &Held {
        &self.walk.held
    }

    pub fn player(&self) -> Player {
        self.walk.held.player.clone()
    }

    /// A key's frame, value and slope, by its place among all keys.
    pub fn key(&self, place: usize) -> [f32; 3] {
        self.walk.held.keys.each_ref().map(|array| array[place])
    }

    pub fn call(&mut self, call: Call) -> Answer {
        let Step::Called(_, plain) = self.walk.call(call) else {
            panic!("{call:?} is a call");
        };
        self.same(call, plain)
    }

    /// Without the plain machine, which has no spoiled states.
    pub fn spoiled_call(&mut self, call: Call) -> Answer {
        let plain = self.walk.held.step(&call);
        self.same(call, plain)
    }

    fn same(&mut self, call: Call, plain: Answer) -> Answer {
        let held = &self.walk.held;
        assert_eq!(self.ours.step(&call, held), plain, "{call:?}");
        assert!(self.ours.is(held), "{call:?}");
        plain
    }

    pub fn accept(&mut self, call: Call) {
        assert_eq!(self.call(call).refusal, 0, "{call:?}");
    }

    pub fn accept_all(&mut self, calls: impl IntoIterator<Item = Call>) {
        calls.into_iter().for_each(|call| self.accept(call));
    }

    /// An accepted edit, drag or drop that is not unchanged.
    pub fn change(&mut self, call: Call) {
        let told = Told::Edited { unchanged: false };
        assert_eq!(self.call(call), Answer { refusal: 0, told }, "{call:?}");
    }

    /// One that is unchanged: keys and player are as they were, the drag apart.
    pub fn leave(&mut self, call: Call) {
        let state = |both: &Self| {
            let drag = Drag::default();
            let player = Player {
                drag,
                ..both.player()
            };
            (player, both.held().key_bits())
        };
        let before = state(self);
        let told = Told::Edited { unchanged: true };
        assert_eq!(self.call(call), Answer { refusal: 0, told }, "{call:?}");
        assert_eq!(state(self), before, "{call:?}");
    }

    /// A call that is declined by this number.
    pub fn decline(&mut self, call: Call, refusal: u8) {
        assert_eq!(self.call(call).refusal, refusal, "{call:?}");
    }

    /// The sheet as it is saved, which loads and is saved again as it is.
    pub fn save(&mut self) -> Vec<u8> {
        let answer = self.call(Call::Save { short: 0 });
        let written = answer.saved().expect("it is accepted").to_vec();
        assert_eq!(self.ours.again(&written), Ok(()));
        written
    }

    pub fn loaded(&self) -> Vec<u8> {
        self.walk.held.sheet_bytes.clone()
    }

    /// Makes a spoil, and gives the one that takes it back.
    pub fn spoil(&mut self, spoil: &Spoil) -> Spoil {
        self.ours.spoil(spoil);
        spoil.make(&mut self.walk.held)
    }
}

/// One animation, and one Hermite curve with these frames, all else 0.
pub fn hermite(frames: &[f32]) -> Sheet {
    Sheet {
        animations: vec![Animation::default()],
        contents: vec![Content::default()],
        targets: vec![Target {
            curve: HERMITE,
            key_count: frames.len() as u16,
            ..Target::default()
        }],
        frames: frames.to_vec(),
        values: vec![0.0; frames.len()],
        slopes: vec![0.0; frames.len()],
        ..Sheet::default()
    }
}

pub fn key_edit(track: u16, key: u16, frame: f32, value: f32) -> Call {
    Call::Edit {
        track,
        key,
        request: Request::Key { frame, value },
    }
}

pub fn slope_edit(track: u16, key: u16, slope: f32) -> Call {
    Call::Edit {
        track,
        key,
        request: Request::Slope(slope),
    }
}

pub fn open(track: u16, key: u16) -> Call {
    Call::OpenDrag { track, key }
}

pub fn drag(frame: f32, value: f32) -> Call {
    Call::Drag { frame, value }
}

/// A change of a player's field.
pub fn field(field: u8, value: u64) -> Spoil {
    Spoil::Field {
        field,
        row: 0,
        value,
    }
}
