//! A call's words.

use super::good;
use super::number::argument;
use super::word::Words;
use crate::calls::held::Held;
use crate::calls::{Call, NONE, Request};
use crate::random::Random;

/// A call's words, parted by one space; nothing for one that lends an output of
/// another length, which no line can say.
pub fn words(call: &Call, held: &Held, random: &mut Random) -> Option<String> {
    Some(match *call {
        Call::Play(animation) => format!("play {}", selection(animation)),
        Call::Pose(animation, frame) => {
            format!("pose {} {}", selection(animation), argument(frame))
        }
        Call::Tick { dt, fps } => format!("tick {} {}", argument(dt), argument(fps)),
        Call::Edit {
            track,
            key,
            request,
        } => edit(track, key, request),
        Call::Undo => "undo".to_string(),
        Call::Redo => "redo".to_string(),
        Call::OpenDrag { track, key } => format!("open {track} {key}"),
        Call::Drag { frame, value } => format!("drag {} {}", argument(frame), argument(value)),
        Call::DropDrag => "drop".to_string(),
        Call::AbandonDrag => "abandon".to_string(),
        Call::NextName(animation) => format!("next {animation}"),
        Call::Save { short: 0 } => "save".to_string(),
        Call::Save { .. } => return None,
        _ => {
            let book = good(held);
            return reading(call, &mut Words { book, random });
        }
    })
}

/// The words of a reading.
fn reading(call: &Call, word: &mut Words) -> Option<String> {
    Some(match *call {
        Call::ReadPane { pane, channel } => {
            let (pane, channel) = (word.pane(pane), word.pane_channel(channel));
            format!("read pane {pane} {channel}")
        }
        Call::ReadMaterial { material, channel } => {
            let (material, channel) = (word.material(material), word.material_channel(channel));
            format!("read material {material} {channel}")
        }
        Call::ReadAll { short: 0 } => "read all".to_string(),
        Call::ResolvePane(pane) => format!("resolve pane {}", word.pane(pane)),
        Call::ResolveSrt { material, layer } => {
            format!("resolve srt {} {layer}", word.material(material))
        }
        Call::TextureName { material, slot } => format!("name {} {slot}", word.material(material)),
        Call::Cascade { short: 0 } => "cascade".to_string(),
        _ => return None,
    })
}

fn edit(track: u16, key: u16, request: Request) -> String {
    match request {
        Request::Key { frame, value } => {
            let (frame, value) = (argument(frame), argument(value));
            format!("key {track} {key} {frame} {value}")
        }
        Request::Slope(slope) => format!("slope {track} {key} {}", argument(slope)),
    }
}

pub fn selection(animation: u16) -> String {
    match animation {
        NONE => "none".to_string(),
        number => number.to_string(),
    }
}
