//! Calls as the command line's `replay` takes them, one a line, and their answers
//! as it writes them. Both are made from the calls and answers here alone.

mod call;
mod channel;
mod number;
mod refusal;
mod told;
mod word;

use super::held::Held;
use super::player::Drag;
use super::{Answer, Call, Request};
use crate::bits::bits_of;
use crate::format::book::Book;
use call::selection;
pub use call::words;
use number::number;
use told::Text;

/// The line that is answered: its number in the list, the first being 1, and its words.
pub struct Line<'a> {
    pub number: usize,
    pub words: &'a str,
}

/// What is written for a call's answer, its last line end included. `before` is the
/// drag before the call, which a drop has closed.
pub fn answer(line: &Line, call: &Call, answer: &Answer, held: &Held, before: &Drag) -> Vec<u8> {
    let mut text = Text::of(line);
    let rows = matches!(call, Call::ReadAll { .. } | Call::Cascade { .. });
    if !rows {
        text.say(" ");
    }
    match (call, answer.refusal) {
        (Call::NextName(animation), _) => text.next(*animation, answer, held),
        (_, 0) => text.told(&answer.told, &Edited::of(call, before), held),
        (_, refusal) => {
            if rows {
                text.row();
            }
            text.declined(refusal, call, held);
        }
    }
    text.end()
}

/// The track and key of an edit, a drag or a drop, and the frame and value that were
/// asked for.
struct Edited {
    track: u16,
    key: u16,
    asked: Option<[f32; 2]>,
}

impl Edited {
    fn of(call: &Call, before: &Drag) -> Self {
        let (track, key) = match *call {
            Call::Edit { track, key, .. } => (track, key),
            _ => (before.track, before.key),
        };
        let asked = match *call {
            Call::Drag { frame, value }
            | Call::Edit {
                request: Request::Key { frame, value },
                ..
            } => Some([frame, value]),
            _ => None,
        };
        Self { track, key, asked }
    }
}

/// What `player` answers.
pub fn player(line: &Line, held: &Held) -> Vec<u8> {
    let p = &held.player;
    let yes = |flag: bool| if flag { "yes" } else { "no" };
    let mut text = Text::of(line);
    text.say(&format!(
        " selection {} frame {} playing {} preview {}",
        selection(p.selection),
        number(p.frame),
        yes(p.playing),
        yes(p.preview)
    ));
    text.say(&format!(
        " reach {} redo {} accepted {} undone {} redone {} standing {}",
        p.reach, p.redo, p.accepted, p.undone, p.redone, p.standing
    ));
    text.say(&format!(" drag {}", drag(&p.drag)));
    text.end()
}

/// An open drag's key as it was at opening, and whether a drag was accepted since.
fn drag(drag: &Drag) -> String {
    if !drag.open {
        return "none".to_string();
    }
    let [frame, value, slope] = drag.start.map(number);
    let not = if drag.moved { "" } else { "not " };
    let Drag { track, key, .. } = drag;
    format!("{track} {key} from {frame} {value} {slope}, {not}moved")
}

/// What `keys` answers.
pub fn keys(line: &Line, held: &Held) -> Vec<u8> {
    let mut text = Text::of(line);
    for (track, target) in held.sheet.targets.iter().enumerate() {
        for (key, at) in target.keys().enumerate() {
            let numbers = key_numbers(held, at);
            text.row();
            text.say(&format!("track {track} key {key} {numbers}"));
        }
    }
    text.end()
}

/// A key by its place among all keys.
fn key_numbers(held: &Held, at: usize) -> String {
    let numbers = held.keys.each_ref().map(|array| number(bits_of(array[at])));
    let [frame, value, slope] = numbers;
    format!("frame {frame} value {value} slope {slope}")
}

fn good(held: &Held) -> &Book {
    &held.book.good.as_ref().expect("a book that is good").rows
}

/// A name without the zero bytes at its end.
fn counted(name: &[u8]) -> &[u8] {
    let end = name.iter().rposition(|&byte| byte != 0);
    &name[..end.map_or(0, |last| last + 1)]
}
