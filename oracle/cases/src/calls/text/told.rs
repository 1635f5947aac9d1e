//! What is written behind a line's words.

use super::number::number;
use super::{Edited, Line, channel, counted, good, key_numbers, refusal};
use crate::bits::bits_of;
use crate::calls::held::Held;
use crate::calls::readings::{material_reading, pane_reading};
use crate::calls::{Answer, Call, One, Tick, Told, table};
use crate::readings::whole::{MATERIAL_CHANNELS, PANE_CHANNELS};

/// An answer as far as it is written. Names need not be text.
pub struct Text(Vec<u8>);

impl Text {
    pub fn of(line: &Line) -> Self {
        let Line { number, words } = line;
        Self(format!("{number} {words}:").into_bytes())
    }

    /// Begins a further line of the answer.
    pub fn row(&mut self) {
        self.say("\n  ");
    }

    pub fn end(mut self) -> Vec<u8> {
        self.say("\n");
        self.0
    }

    pub fn say(&mut self, text: &str) {
        self.0.extend(text.as_bytes());
    }

    /// A byte of a name that would break the line is shown as a question mark.
    fn name(&mut self, name: &[u8]) {
        let plain = counted(name).iter().map(|&byte| match byte {
            0..32 | 127 => b'?',
            byte => byte,
        });
        self.0.extend(plain);
    }

    fn named(&mut self, what: &str, name: &[u8]) {
        self.say(what);
        self.name(name);
    }

    pub fn declined(&mut self, refusal: u8, call: &Call, held: &Held) {
        let words = refusal::words(refusal, call, held);
        self.say(&format!("declined {refusal}: {words}"));
    }

    /// The name that follows: its row says whether there is one, since a name may
    /// be empty. From A up row 6 declines.
    pub fn next(&mut self, animation: u16, answer: &Answer, held: &Held) {
        let row = held.sheet.animations.get(usize::from(animation));
        match (row, &answer.told) {
            (Some(row), Told::Name(name)) if row.next_present == 1 => self.named("next ", name),
            (Some(_), _) => self.say("none"),
            (None, _) => self.declined(6, &Call::NextName(animation), held),
        }
    }

    pub fn told(&mut self, told: &Told, edited: &Edited, held: &Held) {
        match told {
            Told::Done => self.say("ok"),
            Told::Edited { unchanged } => self.edited(*unchanged, edited, held),
            Told::Tick(tick) => self.tick(tick),
            Told::One(one) => self.one(*one, held),
            Told::All { marks, numbers } => self.all(marks, numbers, held),
            Told::Pane {
                visible,
                alpha,
                transform,
            } => {
                self.shown(*visible == 1);
                self.numbers(" alpha", &[*alpha]);
                self.numbers(" translation", &transform[..3]);
                self.numbers(" rotation", &transform[3..6]);
                self.numbers(" scale", &transform[6..8]);
                self.numbers(" size", &transform[8..]);
            }
            Told::Srt(srt) => {
                self.numbers("translate", &srt[..2]);
                self.numbers(" rotate", &srt[2..3]);
                self.numbers(" scale", &srt[3..]);
            }
            Told::Name(name) => self.named("name ", name),
            Told::Cascade { visible, alpha, .. } => self.cascade(visible, alpha, held),
            Told::Saved(bytes) => self.saved(bytes, held),
        }
    }

    /// The key as it is stored now, and where that is not what was asked for.
    fn edited(&mut self, unchanged: bool, edited: &Edited, held: &Held) {
        let at = table::place(&held.sheet, edited.track, edited.key);
        let what = if unchanged { "unchanged" } else { "ok" };
        self.say(&format!("{what} {}", key_numbers(held, at)));
        let Some(asked) = edited.asked else {
            return;
        };
        for (i, otherwise) in [" clamped", " rounded"].into_iter().enumerate() {
            if bits_of(held.keys[i][at]) != bits_of(asked[i]) {
                self.say(otherwise);
            }
        }
    }

    fn tick(&mut self, tick: &Tick) {
        match tick {
            Tick::Idle => self.say("idle"),
            Tick::Running => self.say("running"),
            Tick::Ended => self.say("ended"),
            Tick::Next(name) => self.named("ended next ", name),
        }
    }

    fn shown(&mut self, shown: bool) {
        self.say(if shown { "shown" } else { "hidden" });
    }

    fn numbers(&mut self, what: &str, numbers: &[u32]) {
        self.say(what);
        for &bits in numbers {
            self.say(&format!(" {}", number(bits)));
        }
    }

    /// A texture row stands with the sheet's name of it.
    fn one(&mut self, one: One, held: &Held) {
        match one {
            One::Nothing => self.say("none"),
            One::Number(bits) => self.say(&number(bits)),
            One::Shown(shown) => self.shown(shown),
            One::Texture(row) => {
                self.say(&format!("row {row} "));
                self.name(&held.sheet.textures[usize::from(row)]);
            }
            One::Level(level) => self.say(&format!("level {level}")),
        }
    }

    /// Every marked channel.
    fn all(&mut self, marks: &[u8], numbers: &[u32], held: &Held) {
        let book = good(held);
        for at in (0..marks.len()).filter(|&at| marks[at] == 1) {
            let read = Some(f32::from_bits(numbers[at]));
            self.row();
            match at.checked_sub(PANE_CHANNELS * book.panes.len()) {
                None => {
                    let (row, channel) = (at / PANE_CHANNELS, at % PANE_CHANNELS);
                    self.named("pane ", &book.panes[row].label);
                    self.channel(channel::of_pane(channel as u16));
                    self.one(pane_reading(channel, read), held);
                }
                Some(at) => {
                    let (row, channel) = (at / MATERIAL_CHANNELS, at % MATERIAL_CHANNELS);
                    self.named("material ", &book.materials[row].name);
                    self.channel(channel::of_material(channel as u16));
                    self.one(material_reading(channel, read), held);
                }
            }
        }
    }

    fn channel(&mut self, name: Option<String>) {
        self.say(&format!(" {} ", name.expect("a channel that there is")));
    }

    fn cascade(&mut self, visible: &[u8], alpha: &[u32], held: &Held) {
        for (row, pane) in good(held).panes.iter().enumerate() {
            self.row();
            self.named("pane ", &pane.label);
            self.say(" ");
            self.shown(visible[row] == 1);
            self.numbers(" alpha", &alpha[row..=row]);
        }
    }

    /// How much was written, and at how many places it is not the loaded sheet.
    fn saved(&mut self, bytes: &[u8], held: &Held) {
        let pairs = bytes.iter().zip(&held.sheet_bytes);
        let differ = pairs.filter(|(written, loaded)| written != loaded).count();
        let count = bytes.len();
        self.say(&format!(
            "saved {count} bytes, {differ} differ from the loaded sheet"
        ));
    }
}
