//! The plain machine of document 01, "Playing and editing", fed the calls
//! alone. It has no journal: its keys are always the loaded ones with the
//! standing list made in order, and then, of document 02, "an open drag's last
//! accepted request .. as a last, unnumbered edit". It declines by the table on its
//! own state, of which rows 1, 3, 4 and 5 decline nothing.

mod drags;

use super::player::{Player, ROWS};
use super::readings::{self, LentBook, refused};
use super::reference::Reference;
use super::{Answer, Call, Request, Told, View, table};
use crate::bits::bits_of;
use crate::format::load::Arrays;
use crate::format::save;
use crate::format::sheet::Sheet;
use drags::Drag;

/// The keys are made anew where one more edit would do: each time while fewer edits
/// stand, and once in so many times.
const AGAIN: usize = 16;

/// A standing edit.
#[derive(Clone, Copy, Debug)]
struct Edit {
    animation: u16,
    track: u16,
    key: u16,
    request: Request,
}

pub struct Machine {
    sheet: Sheet,
    loaded: Arrays,
    standing: Vec<Edit>,
    redo: Vec<Edit>,
    drag: Option<Drag>,
    reach: u64,
    accepted: u64,
    undone: u64,
    redone: u64,
    pub view: View,
    /// The loaded keys with the standing list made in order, and then the drag.
    keys: Arrays,
    reference: Reference,
    /// How many edits were made on the keys as they were.
    made: usize,
}

impl Machine {
    pub fn new(sheet: &Sheet) -> Self {
        let loaded = [&sheet.frames, &sheet.values, &sheet.slopes].map(Clone::clone);
        Self {
            sheet: sheet.clone(),
            standing: Vec::new(),
            redo: Vec::new(),
            drag: None,
            reach: 0,
            accepted: 0,
            undone: 0,
            redone: 0,
            view: View::FRESH,
            keys: loaded.clone(),
            loaded,
            reference: Reference::new(sheet),
            made: 0,
        }
    }

    pub fn step(&mut self, call: &Call, book: &LentBook) -> Answer {
        let view = self.view;
        match *call {
            Call::Play(animation) => {
                let refusal = table::play_rows(&self.sheet, animation);
                self.unless(refusal, call, book, |m| {
                    m.view = m.reference.play(view, animation);
                    Told::Done
                })
            }
            Call::Pose(animation, frame) => self.unless(table::pose_rows(frame), call, book, |m| {
                m.view = m.reference.pose(view, animation, frame);
                Told::Done
            }),
            Call::Tick { dt, fps } => {
                let refusal = table::tick_rows(&mut self.reference, view, dt, fps);
                self.unless(refusal, call, book, |m| {
                    let (next, answer) = m.reference.tick(view, dt, fps);
                    m.view = next;
                    Told::Tick(answer)
                })
            }
            Call::Edit {
                track,
                key,
                request,
            } => self.edit(call, book, (track, key, request)),
            Call::Undo => {
                let refusal = table::take_rows(self.is_open(), self.reach);
                self.unless(refusal, call, book, Self::undo)
            }
            Call::Redo => {
                let refusal = table::take_rows(self.is_open(), self.redo.len() as u64);
                self.unless(refusal, call, book, Self::redo)
            }
            Call::OpenDrag { track, key } => self.open_drag(call, book, track, key),
            Call::Drag { frame, value } => self.drag(call, book, Request::Key { frame, value }),
            Call::DropDrag => {
                let refusal = table::drag_rows(self.is_open());
                self.unless(refusal, call, book, Self::drop_drag)
            }
            Call::AbandonDrag => {
                let refusal = table::drag_rows(self.is_open());
                self.unless(refusal, call, book, Self::abandon_drag)
            }
            Call::Save { short } => {
                let refusal = table::save_rows(&self.sheet, short);
                self.unless(refusal, call, book, |m| {
                    Told::Saved(save::written(&m.sheet, &m.keys))
                })
            }
            Call::NextName(animation) => Answer {
                refusal: 0,
                told: readings::next_name(&self.reference, animation),
            },
            _ => readings::answer(&self.sheet, book, &self.reference, view, call),
        }
    }

    /// A declined call changes nothing.
    fn unless(
        &mut self,
        refusal: u8,
        call: &Call,
        book: &LentBook,
        step: impl FnOnce(&mut Self) -> Told,
    ) -> Answer {
        if refusal != 0 {
            return refused(&self.sheet, book, call, refusal);
        }
        let told = step(self);
        Answer { refusal, told }
    }

    fn is_open(&self) -> bool {
        self.drag.is_some()
    }

    fn opening_rows(&self, track: u16, key: u16) -> u8 {
        let selection = self.view.selection;
        table::opening_rows(&self.sheet, selection, self.is_open(), track, key)
    }

    /// Of a key that there is.
    fn request_rows(&mut self, edit: &Edit) -> u8 {
        let (sheet, reference) = (&self.sheet, &mut self.reference);
        let asked = (edit.track, edit.key, edit.request);
        table::request_rows(sheet, reference, &self.keys, edit.animation, asked)
    }

    fn edit(&mut self, call: &Call, book: &LentBook, asked: (u16, u16, Request)) -> Answer {
        let (track, key, request) = asked;
        let edit = Edit {
            animation: self.view.selection,
            track,
            key,
            request,
        };
        let refusal = match self.opening_rows(track, key) {
            0 => self.request_rows(&edit),
            refusal => refusal,
        };
        self.unless(refusal, call, book, |m| {
            let unchanged = m.make_last(edit);
            if !unchanged {
                m.append(edit);
            }
            m.make_again();
            Told::Edited { unchanged }
        })
    }

    /// "Accepted edit: append, reach + 1 up to 128, redo emptied, accepted + 1." An
    /// unchanged edit (document 02, 4/13) isn't appended.
    fn append(&mut self, edit: Edit) {
        self.standing.push(edit);
        self.reach = (self.reach + 1).min(ROWS as u64);
        self.redo.clear();
        self.accepted += 1;
    }

    /// "Undo: the last standing edit moves to redo, reach − 1, undone + 1."
    fn undo(&mut self) -> Told {
        let edit = self.standing.pop().expect("reach is at most standing");
        self.redo.push(edit);
        self.reach -= 1;
        self.undone += 1;
        self.make_all();
        Told::Done
    }

    /// "Redo: the edit moved last moves back, reach + 1, redone + 1."
    fn redo(&mut self) -> Told {
        let edit = self.redo.pop().expect("row 11");
        self.standing.push(edit);
        self.reach += 1;
        self.redone += 1;
        self.make_last(edit);
        self.make_again();
        Told::Done
    }

    /// Makes an edit on the keys that are there: whether its key has the same bits as
    /// before.
    fn make_last(&mut self, edit: Edit) -> bool {
        let before = self.numbers(edit.track, edit.key);
        self.make(edit);
        self.reference.take(usize::from(edit.track), &mut self.keys);
        self.made += 1;
        before == self.numbers(edit.track, edit.key)
    }

    /// Now and then all are made anew, with the same outcome: an unchanged edit isn't
    /// missed, and a drag's request leaves nothing of the one before it.
    fn make_again(&mut self) {
        if self.standing.len() < AGAIN || self.made.is_multiple_of(AGAIN) {
            let before = self.keys();
            self.make_all();
            assert_eq!(before, self.keys());
        }
    }

    fn make(&mut self, edit: Edit) {
        let Edit {
            animation,
            track,
            key,
            request,
        } = edit;
        self.reference.edit(animation, track, key, request);
    }

    /// The loaded keys with the standing list made in order, and then the drag.
    fn make_all(&mut self) {
        self.reference.put_all(&self.loaded);
        for i in 0..self.standing.len() {
            self.make(self.standing[i]);
        }
        if let Some(edit) = self.drag.and_then(|drag| drag.last()) {
            self.make(edit);
        }
        self.reference.take_all(&mut self.keys);
    }

    /// Whether no edit stands, and none is made by a drag.
    pub fn is_unedited(&self) -> bool {
        self.standing.is_empty() && self.drag.is_none_or(|drag| drag.last().is_none())
    }

    /// A key's frame, value and slope, as bits.
    fn numbers(&self, track: u16, key: u16) -> [u32; 3] {
        let place = table::place(&self.sheet, track, key);
        self.keys.each_ref().map(|array| bits_of(array[place]))
    }

    /// The keys' bits.
    pub fn keys(&self) -> [Vec<u32>; 3] {
        self.keys.each_ref().map(|array| bits(array))
    }

    /// "The player carries reach, counts and standing (the standing list's
    /// length) as here", and the redo list's length and the drag, which closed is all
    /// 0: whether it does.
    pub fn is_carried_by(&self, player: &Player) -> bool {
        let view = self.view;
        let of_view = (
            view.selection,
            view.playing,
            view.preview,
            bits_of(view.frame),
        );
        let counts = [
            self.reach,
            self.redo.len() as u64,
            self.accepted,
            self.undone,
            self.redone,
            self.standing.len() as u64,
        ];
        let p = player;
        of_view == (p.selection, p.playing, p.preview, p.frame)
            && counts == [p.reach, p.redo, p.accepted, p.undone, p.redone, p.standing]
            && self.drag.map_or_else(Default::default, |d| d.carried()) == p.drag
    }
}

fn bits(array: &[f32]) -> Vec<u32> {
    array.iter().map(|&x| bits_of(x)).collect()
}
