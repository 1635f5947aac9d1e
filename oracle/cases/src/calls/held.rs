//! A player and its lent keys, whatever state they are in: rows 1 to 5 decide
//! whether a call is made on them. It is what a caller of the interface holds,
//! and so has the journal that the plain machine does without.

use super::player::{Drag, Entry, Player};
use super::readings::{self, LentBook, refused};
use super::reference::Reference;
use super::{Answer, Call, Request, Told, buffer_length, lent_length, table};
use crate::bits::bits_of;
use crate::format::book::Book;
use crate::format::load::Arrays;
use crate::format::save;
use crate::format::sheet::Sheet;

pub struct Held {
    pub sheet: Sheet,
    /// The sheet's bytes as they are lent; damaged ones are no sheet.
    pub sheet_bytes: Vec<u8>,
    pub sheet_damaged: bool,
    pub book: LentBook,
    pub player: Player,
    pub keys: Arrays,
    /// Which key array is handed on one short: 1 frames, 2 values, 3 slopes; 4 to
    /// 6 one long.
    pub short: u8,
    reference: Reference,
    /// The keys were changed and are not yet the reference's.
    changed: bool,
}

impl Held {
    /// Freshly loaded.
    pub fn new(sheet: &Sheet, book: &Book) -> Self {
        Self {
            sheet: sheet.clone(),
            sheet_bytes: sheet.write(),
            sheet_damaged: false,
            book: LentBook::new(book),
            player: Player::fresh(),
            keys: [&sheet.frames, &sheet.values, &sheet.slopes].map(Clone::clone),
            short: 0,
            reference: Reference::new(sheet),
            changed: false,
        }
    }

    /// How long the key arrays are as they are handed on.
    pub fn lengths(&self) -> [usize; 3] {
        let count = self.keys[0].len();
        [1, 2, 3].map(|of| lent_length(count, 3, of, self.short))
    }

    /// How long the buffer of a save is lent.
    pub fn buffer_length(&self, short: u8) -> usize {
        buffer_length(self.sheet.length(), short)
    }

    /// Sets one of a key's numbers.
    pub fn set_key(&mut self, array: usize, index: usize, to: f32) {
        self.keys[array][index] = to;
        self.changed = true;
    }

    /// Puts a player and keys in the place of its own.
    pub fn put(&mut self, player: &Player, keys: &Arrays) {
        self.player.clone_from(player);
        self.keys.clone_from(keys);
        self.changed = true;
    }

    /// All keys' bits.
    pub fn key_bits(&self) -> [Vec<u32>; 3] {
        let bits = |array: &Vec<f32>| array.iter().map(|&x| bits_of(x)).collect();
        self.keys.each_ref().map(bits)
    }

    /// The marks of a whole reading, where one is accepted and the keys are the
    /// reference's.
    pub fn marks(&self) -> Option<Vec<u8>> {
        let call = Call::ReadAll { short: 0 };
        if self.changed || self.rows_1_to_5(&call) != 0 {
            return None;
        }
        let view = self.player.view();
        match readings::answer(&self.sheet, &self.book, &self.reference, view, &call).told {
            Told::All { marks, .. } => Some(marks),
            _ => None,
        }
    }

    pub fn step(&mut self, call: &Call) -> Answer {
        if let Call::NextName(animation) = *call {
            return self.next_name(call, animation);
        }
        let refusal = self.rows_1_to_5(call);
        if refusal != 0 {
            return refused(&self.sheet, &self.book, call, refusal);
        }
        if self.changed && call.takes_keys() {
            self.reference.put_all(&self.keys);
            self.changed = false;
        }
        self.made(call)
    }

    /// It takes the sheet alone and answers with no number.
    fn next_name(&self, call: &Call, animation: u16) -> Answer {
        if self.sheet_damaged {
            return refused(&self.sheet, &self.book, call, 0);
        }
        let told = readings::next_name(&self.reference, animation);
        Answer { refusal: 0, told }
    }

    /// Rows 1 to 5, "each only where the call takes that thing", but for what
    /// row 5 asks of the entry of an undo and a redo.
    fn rows_1_to_5(&self, call: &Call) -> u8 {
        if self.sheet_damaged {
            return 1;
        }
        if call.takes_book() && self.book.good.is_none() {
            return 2;
        }
        if call.takes_keys() && table::row_3(&self.sheet, self.lengths()) {
            return 3;
        }
        if call.takes_keys() && table::row_4(&self.sheet, &self.keys) {
            return 4;
        }
        if table::row_5(&self.sheet, &self.player) {
            return 5;
        }
        if call.takes_keys() && table::row_5_start(&self.sheet, &self.keys, &self.player.drag) {
            return 5;
        }
        0
    }

    fn made(&mut self, call: &Call) -> Answer {
        let view = self.player.view();
        let refusal = match *call {
            Call::Play(animation) => table::play_rows(&self.sheet, animation),
            Call::Pose(_, frame) => table::pose_rows(frame),
            Call::Tick { dt, fps } => table::tick_rows(&mut self.reference, view, dt, fps),
            Call::Edit {
                track,
                key,
                request,
            } => match self.opening_rows(track, key) {
                0 => self.request_rows(track, key, request),
                refusal => refusal,
            },
            Call::Undo => self.undo_rows(),
            Call::Redo => self.redo_rows(),
            Call::OpenDrag { track, key } => self.opening_rows(track, key),
            Call::Drag { frame, value } => match table::drag_rows(self.player.drag.open) {
                0 => self.drag_request_rows(frame, value),
                refusal => refusal,
            },
            Call::DropDrag | Call::AbandonDrag => table::drag_rows(self.player.drag.open),
            Call::Save { short } => table::save_rows(&self.sheet, short),
            _ => return readings::answer(&self.sheet, &self.book, &self.reference, view, call),
        };
        if refusal != 0 {
            return refused(&self.sheet, &self.book, call, refusal);
        }
        let told = self.moved(call);
        Answer { refusal, told }
    }

    /// The step of an accepted call that is no reading; a save's moves nothing.
    fn moved(&mut self, call: &Call) -> Told {
        let view = self.player.view();
        match *call {
            Call::Play(animation) => self.player.set_view(self.reference.play(view, animation)),
            Call::Pose(animation, frame) => {
                let posed = self.reference.pose(view, animation, frame);
                self.player.set_view(posed);
            }
            Call::Tick { dt, fps } => {
                let (next, answer) = self.reference.tick(view, dt, fps);
                self.player.set_view(next);
                return Told::Tick(answer);
            }
            Call::Edit {
                track,
                key,
                request,
            } => {
                let unchanged = self.edit(track, key, request);
                return Told::Edited { unchanged };
            }
            Call::Undo => {
                let entry = self.player.undo_entry();
                self.put_back(entry.track, entry.key, entry.before);
                self.player.undid();
            }
            Call::Redo => {
                let entry = self.player.redo_entry();
                self.put_back(entry.track, entry.key, entry.after);
                self.player.redid();
            }
            Call::OpenDrag { track, key } => {
                let now = self.numbers(track, key);
                self.player.opened(track, key, now);
            }
            Call::Drag { frame, value } => {
                let Drag { track, key, .. } = self.player.drag;
                let unchanged = self.request(track, key, Request::Key { frame, value });
                self.player.drag.moved = true;
                return Told::Edited { unchanged };
            }
            Call::DropDrag => {
                let Drag { track, key, .. } = self.player.drag;
                let now = self.numbers(track, key);
                let unchanged = self.player.dropped(now);
                return Told::Edited { unchanged };
            }
            Call::AbandonDrag => {
                let drag = std::mem::take(&mut self.player.drag);
                self.put_back(drag.track, drag.key, drag.start);
            }
            Call::Save { .. } => return Told::Saved(save::written(&self.sheet, &self.keys)),
            _ => {}
        }
        Told::Done
    }

    fn opening_rows(&self, track: u16, key: u16) -> u8 {
        let Player {
            selection, drag, ..
        } = &self.player;
        table::opening_rows(&self.sheet, *selection, drag.open, track, key)
    }

    /// Of a key that there is.
    fn request_rows(&mut self, track: u16, key: u16, request: Request) -> u8 {
        let (sheet, reference) = (&self.sheet, &mut self.reference);
        let animation = table::animation(sheet, track);
        let asked = (track, key, request);
        table::request_rows(sheet, reference, &self.keys, animation, asked)
    }

    fn drag_request_rows(&mut self, frame: f32, value: f32) -> u8 {
        let Drag { track, key, .. } = self.player.drag;
        self.request_rows(track, key, Request::Key { frame, value })
    }

    /// Row 5 comes first, but is asked only "with an entry to take", and "while a drag
    /// is open, row 5 asks nothing of the entry".
    fn undo_rows(&self) -> u8 {
        match table::take_rows(self.player.drag.open, self.player.reach) {
            0 => {
                let entry = self.player.undo_entry();
                self.return_row(entry, entry.after, entry.before)
            }
            refusal => refusal,
        }
    }

    fn redo_rows(&self) -> u8 {
        match table::take_rows(self.player.drag.open, self.player.redo) {
            0 => {
                let entry = self.player.redo_entry();
                self.return_row(entry, entry.before, entry.after)
            }
            refusal => refusal,
        }
    }

    fn return_row(&self, entry: Entry, now: [u32; 3], back: [u32; 3]) -> u8 {
        if table::row_5_return(&self.sheet, &self.keys, entry, now, back) {
            5
        } else {
            0
        }
    }

    /// An edit: whether it is unchanged. Else it has an entry in the journal.
    fn edit(&mut self, track: u16, key: u16, request: Request) -> bool {
        let before = self.numbers(track, key);
        let unchanged = self.request(track, key, request);
        if !unchanged {
            self.player.edited(Entry {
                track,
                key,
                before,
                after: self.numbers(track, key),
            });
        }
        unchanged
    }

    /// Makes a request in the track's own animation, which for an edit is the active
    /// one: whether the key has the same bits as before.
    fn request(&mut self, track: u16, key: u16, request: Request) -> bool {
        let before = self.numbers(track, key);
        let animation = table::animation(&self.sheet, track);
        self.reference.edit(animation, track, key, request);
        self.reference.take(usize::from(track), &mut self.keys);
        before == self.numbers(track, key)
    }

    /// A key's frame, value and slope, as bits.
    fn numbers(&self, track: u16, key: u16) -> [u32; 3] {
        let place = table::place(&self.sheet, track, key);
        self.keys.each_ref().map(|array| array[place].to_bits())
    }

    fn put_back(&mut self, track: u16, key: u16, numbers: [u32; 3]) {
        let place = table::place(&self.sheet, track, key);
        (0..3).for_each(|i| self.keys[i][place] = f32::from_bits(numbers[i]));
        self.reference.put(usize::from(track), &self.keys);
    }
}
