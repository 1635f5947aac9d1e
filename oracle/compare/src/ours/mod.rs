//! The proved player beside the plain one: the calls of a list through the
//! package `dovebolt`.

mod fields;
mod refused;
mod saving;
mod single;

use cases::bits::bits_of;
use cases::calls::held::Held;
use cases::calls::player::Drag;
use cases::calls::spoil::Spoil;
use cases::calls::{Answer, Call, FILL_BITS, FILL_BYTE, NONE, One, Request, Tick, Told};
use dovebolt::{
    Edited, Keys, MaterialChannel, PaneChannel, Reading, Refusal, ResolvedPane, Srt, raw,
};

#[derive(Clone)]
pub struct Ours {
    player: dovebolt::Player,
    keys: Keys,
}

impl Ours {
    /// Loads the sheet, which is accepted.
    pub fn load(sheet: &[u8]) -> Self {
        let (player, keys) = dovebolt::Player::load(sheet).expect("a good sheet");
        Self { player, keys }
    }

    pub fn player(&self) -> &raw::Player {
        self.player.as_raw()
    }

    pub fn drag(&self) -> Drag {
        fields::drag(&self.player.as_raw().drag)
    }

    pub fn keys(&self) -> &Keys {
        &self.keys
    }

    /// Whether player and keys are the plain ones, whole.
    pub fn is(&self, held: &Held) -> bool {
        let Keys {
            frames,
            values,
            slopes,
        } = &self.keys;
        let ours = [frames, values, slopes];
        fields::same(self.player.as_raw(), &held.player)
            && ours.iter().zip(&held.keys).all(|(a, b)| same_bits(a, b))
    }

    /// Spoils the state as the plain one was.
    pub fn spoil(&mut self, spoil: &Spoil) {
        match *spoil {
            Spoil::Field { field, row, value } => {
                let mut raw = *self.player.as_raw();
                fields::set(&mut raw, field, usize::from(row), value);
                self.player = dovebolt::Player::from_raw(raw);
            }
            Spoil::Key { array, index, bits } => {
                self.arrays()[usize::from(array)][usize::from(index)] = f32::from_bits(bits);
            }
            Spoil::Short(_) | Spoil::Sheet(_) | Spoil::Book(_) => {} // of what is lent
        }
    }

    fn arrays(&mut self) -> [&mut Vec<f32>; 3] {
        let Keys {
            frames,
            values,
            slopes,
        } = &mut self.keys;
        [frames, values, slopes]
    }

    /// Makes a call with the sheet, the book and the array lengths that are lent
    /// now.
    pub fn step(&mut self, call: &Call, held: &Held) -> Answer {
        let whole = held.keys[0].len();
        let last = self.arrays().map(|array| array.last().copied());
        let lengths = held.lengths();
        (0..3).for_each(|i| self.arrays()[i].resize(lengths[i], 0.0));
        let answer = self.lent(call, held);
        if answer.refusal != 0 {
            refused::keeps_all(call, held, *self.player.as_raw(), &mut self.keys);
        }
        for (array, last) in self.arrays().into_iter().zip(last) {
            array.resize(whole, last.unwrap_or_default());
        }
        answer
    }

    fn lent(&mut self, call: &Call, held: &Held) -> Answer {
        let s = &held.sheet_bytes[..];
        let (player, keys) = (&mut self.player, &mut self.keys);
        match *call {
            Call::Play(animation) => done(player.play(s, number(animation))),
            Call::Pose(animation, frame) => done(player.pose(s, number(animation), frame)),
            Call::Tick { dt, fps } => {
                let ours = player.tick(s, dt, fps);
                ticked(ours, s, player)
            }
            Call::Edit {
                track,
                key,
                request: Request::Key { frame, value },
            } => edited(player.key_edit(s, keys, track, key, frame, value)),
            Call::Edit {
                track,
                key,
                request: Request::Slope(slope),
            } => edited(player.slope_edit(s, keys, track, key, slope)),
            Call::Undo => done(player.undo(s, keys)),
            Call::Redo => done(player.redo(s, keys)),
            Call::OpenDrag { track, key } => done(player.open_drag(s, keys, track, key)),
            Call::Drag { frame, value } => edited(player.drag(s, keys, frame, value)),
            Call::DropDrag => edited(player.drop_drag(s, keys)),
            Call::AbandonDrag => done(player.abandon_drag(s, keys)),
            Call::NextName(animation) => next_name(held, animation),
            Call::Save { short } => self.save(held, short),
            _ => self.read(call, held, s, &held.book.bytes),
        }
    }

    fn read(&self, call: &Call, held: &Held, s: &[u8], b: &[u8]) -> Answer {
        let (player, keys) = (&self.player, &self.keys);
        match *call {
            Call::ReadPane { pane, channel } => match PaneChannel::from_number(channel) {
                Some(channel) => one(player.read_pane(s, b, keys, pane, channel)),
                None => self.no_channel(call, held),
            },
            Call::ReadMaterial { material, channel } => match MaterialChannel::from_number(channel)
            {
                Some(channel) => one(player.read_material(s, b, keys, material, channel)),
                None => self.no_channel(call, held),
            },
            Call::ResolvePane(pane) => resolved_pane(player.resolve_pane(s, b, keys, pane)),
            Call::ResolveSrt { material, layer } => {
                resolved_srt(player.resolve_srt(s, b, keys, material, layer))
            }
            Call::TextureName { material, slot } => {
                let mut out = [FILL_BYTE; 24];
                let ours = player.texture_name_into(s, b, keys, material, slot, &mut out);
                name(refusal(&ours), out)
            }
            Call::ReadAll { short } => self.read_all(held, s, b, short),
            Call::Cascade { short } => self.cascade(held, s, b, short),
            _ => panic!("{call:?} is no reading"),
        }
    }

    /// A number that no channel has.
    fn no_channel(&self, call: &Call, held: &Held) -> Answer {
        let read = single::read(call, held, *self.player.as_raw(), &self.keys);
        Answer {
            refusal: read.refusal,
            told: Told::One(One::Nothing),
        }
    }

    fn read_all(&self, held: &Held, s: &[u8], b: &[u8], short: u8) -> Answer {
        let count = |of: u8| held.book.channels_lent(of, short);
        let mut marks = vec![FILL_BYTE; count(1)];
        let mut numbers = vec![f32::from_bits(FILL_BITS); count(2)];
        let player = &self.player;
        let ours = player.read_all_into(s, b, &self.keys, &mut marks, &mut numbers);
        let numbers = bits(&numbers);
        Answer {
            refusal: refusal(&ours),
            told: Told::All { marks, numbers },
        }
    }

    fn cascade(&self, held: &Held, s: &[u8], b: &[u8], short: u8) -> Answer {
        let count = |of: u8| held.book.panes_lent(of, short);
        let mut visible = vec![FILL_BYTE; count(1)];
        let mut alpha = vec![f32::from_bits(FILL_BITS); count(2)];
        let mut influence = vec![f32::from_bits(FILL_BITS); count(3)];
        let (player, keys) = (&self.player, &self.keys);
        let ours = player.cascade_into(s, b, keys, &mut visible, &mut alpha, &mut influence);
        let (alpha, influence) = (bits(&alpha), bits(&influence));
        Answer {
            refusal: refusal(&ours),
            told: Told::Cascade {
                visible,
                alpha,
                influence,
            },
        }
    }
}

fn number(animation: u16) -> Option<u16> {
    (animation != NONE).then_some(animation)
}

fn refusal<T>(ours: &Result<T, Refusal>) -> u8 {
    ours.as_ref().err().map_or(0, |refusal| refusal.number())
}

fn same_bits(ours: &[f32], plain: &[f32]) -> bool {
    let mut pairs = ours.iter().zip(plain);
    ours.len() == plain.len() && pairs.all(|(&a, &b)| bits_of(a) == bits_of(b))
}

fn bits(numbers: &[f32]) -> Vec<u32> {
    numbers.iter().map(|&x| bits_of(x)).collect()
}

fn done(ours: Result<(), Refusal>) -> Answer {
    Answer {
        refusal: refusal(&ours),
        told: Told::Done,
    }
}

fn edited(ours: Result<Edited, Refusal>) -> Answer {
    Answer {
        refusal: refusal(&ours),
        told: Told::Edited {
            unchanged: ours == Ok(Edited::Unchanged),
        },
    }
}

/// A next name is read as a caller does: of the animation that the tick left
/// selected.
fn ticked(ours: Result<dovebolt::Tick, Refusal>, s: &[u8], player: &dovebolt::Player) -> Answer {
    let tick = match ours {
        Ok(dovebolt::Tick::Running) => Tick::Running,
        Ok(dovebolt::Tick::Ended) => Tick::Ended,
        Ok(dovebolt::Tick::Next) => {
            let mut out = [FILL_BYTE; 24];
            let read = dovebolt::next_name_into(s, player.as_raw().selection, &mut out);
            Tick::Next(read.map_or([FILL_BYTE; 24], |()| out))
        }
        Ok(dovebolt::Tick::Idle) | Err(_) => Tick::Idle,
    };
    Answer {
        refusal: refusal(&ours),
        told: Told::Tick(tick),
    }
}

fn one(ours: Result<Reading, Refusal>) -> Answer {
    let one = match ours {
        Ok(Reading::Number(x)) => One::Number(bits_of(x)),
        Ok(Reading::Shown(shown)) => One::Shown(shown),
        Ok(Reading::Row(row)) => One::Texture(row),
        Ok(Reading::Level(level)) => One::Level(level),
        Ok(Reading::Nothing) | Err(_) => One::Nothing,
    };
    Answer {
        refusal: refusal(&ours),
        told: Told::One(one),
    }
}

fn resolved_pane(ours: Result<ResolvedPane, Refusal>) -> Answer {
    let told = match &ours {
        Err(_) => Told::Pane {
            visible: 0,
            alpha: 0,
            transform: [0; 10],
        },
        Ok(pane) => {
            let to = pane.transform;
            let (t, r) = (to.translation, to.rotation);
            let numbers = [t.x, t.y, t.z, r.x, r.y, r.z];
            let more = [to.scale.x, to.scale.y, to.size.x, to.size.y];
            let mut all = numbers.iter().chain(&more);
            Told::Pane {
                visible: pane.visible as u8,
                alpha: bits_of(pane.alpha),
                transform: std::array::from_fn(|_| bits_of(*all.next().expect("ten"))),
            }
        }
    };
    Answer {
        refusal: refusal(&ours),
        told,
    }
}

fn resolved_srt(ours: Result<Srt, Refusal>) -> Answer {
    let numbers = ours.map_or([0.0; 5], |to| {
        let (t, s) = (to.translate, to.scale);
        [t.x, t.y, to.rotate, s.x, s.y]
    });
    Answer {
        refusal: refusal(&ours),
        told: Told::Srt(numbers.map(bits_of)),
    }
}

/// A name that was copied out; a refused call has left the output.
fn name(refusal: u8, out: [u8; 24]) -> Answer {
    let left = refusal != 0 && out == [FILL_BYTE; 24];
    let name = if left { Vec::new() } else { out.to_vec() };
    Answer {
        refusal,
        told: Told::Name(name),
    }
}

/// Where document 01's call answers an empty part, the copying one declines: by
/// row 1 for the sheet, by row 6 for the animation.
fn next_name(held: &Held, animation: u16) -> Answer {
    let mut out = [FILL_BYTE; 24];
    let ours = dovebolt::next_name_into(&held.sheet_bytes, animation, &mut out);
    let empty = if held.sheet_damaged { 1 } else { 6 };
    let answer = name(refusal(&ours), out);
    Answer {
        refusal: if answer.refusal == empty {
            0
        } else {
            answer.refusal
        },
        ..answer
    }
}
