//! Why a call is declined, in the command line's words: a call's own where it has some,
//! else those of the number.

use super::good;
use crate::calls::held::Held;
use crate::calls::{Call, Request, table};
use crate::readings::whole::{MATERIAL_CHANNELS, PANE_CHANNELS};

/// The words of a call that was declined, and so left the player as it is.
pub fn words(refusal: u8, call: &Call, held: &Held) -> String {
    let own = match refusal {
        6 => no_animation(call, held),
        7 => no_row(call, held),
        8 => not_finite(call).map(String::from),
        11 => nothing_to_take(call).map(String::from),
        15 => drag(call).map(String::from),
        _ => None,
    };
    own.unwrap_or_else(|| MEANINGS[usize::from(refusal) - 1].to_string())
}

fn no_animation(call: &Call, held: &Held) -> Option<String> {
    match call {
        Call::Play(_) | Call::NextName(_) => {
            let count = held.sheet.animations.len();
            Some(format!("no such animation: the sheet has {count}"))
        }
        Call::Edit { .. } | Call::OpenDrag { .. } => Some("nothing is active".to_string()),
        _ => None,
    }
}

/// Which row the call names that there is not, the first where there are two.
fn no_row(call: &Call, held: &Held) -> Option<String> {
    match *call {
        Call::Edit { track, .. } | Call::OpenDrag { track, .. } => Some(no_key(track, held)),
        Call::ReadPane { pane, .. } => {
            let no_channel = || format!("no such channel: a pane has {PANE_CHANNELS}");
            Some(no_pane(pane, held).unwrap_or_else(no_channel))
        }
        Call::ReadMaterial { material, .. } => {
            let no_channel = || format!("no such channel: a material has {MATERIAL_CHANNELS}");
            Some(no_material(material, held).unwrap_or_else(no_channel))
        }
        Call::ResolvePane(pane) => no_pane(pane, held),
        Call::ResolveSrt { material, .. } | Call::TextureName { material, .. } => {
            let no_layer = || "no such layer: a material has 3".to_string();
            Some(no_material(material, held).unwrap_or_else(no_layer))
        }
        _ => None,
    }
}

fn no_key(track: u16, held: &Held) -> String {
    let targets = &held.sheet.targets;
    let Some(target) = targets.get(usize::from(track)) else {
        return format!("no such track: the sheet has {}", targets.len());
    };
    let (own, active) = (table::animation(&held.sheet, track), held.player.selection);
    if own != active {
        return format!("track {track} is of animation {own}, and {active} is active");
    }
    let count = target.key_count;
    format!("no such key: track {track} has {count}")
}

fn no_pane(pane: u16, held: &Held) -> Option<String> {
    let count = good(held).panes.len();
    let none = usize::from(pane) >= count;
    none.then(|| format!("no such pane: the book has {count}"))
}

fn no_material(material: u16, held: &Held) -> Option<String> {
    let count = good(held).materials.len();
    let none = usize::from(material) >= count;
    none.then(|| format!("no such material: the book has {count}"))
}

/// Which number is not finite, the first where there are two.
fn not_finite(call: &Call) -> Option<&'static str> {
    match *call {
        Call::Pose(..) => Some("the frame is not finite"),
        Call::Drag { frame, .. }
        | Call::Edit {
            request: Request::Key { frame, .. },
            ..
        } => Some(if frame.is_finite() {
            "the value is not finite"
        } else {
            "the frame is not finite"
        }),
        Call::Edit {
            request: Request::Slope(_),
            ..
        } => Some("the slope is not finite"),
        Call::Tick { .. } => {
            Some("the seconds, the frames per second or the frame that they lead to is not finite")
        }
        _ => None,
    }
}

fn nothing_to_take(call: &Call) -> Option<&'static str> {
    match call {
        Call::Undo => Some("nothing to undo"),
        Call::Redo => Some("nothing to redo"),
        _ => None,
    }
}

fn drag(call: &Call) -> Option<&'static str> {
    match call {
        Call::Edit { .. } | Call::OpenDrag { .. } | Call::Undo | Call::Redo => {
            Some("a drag is open")
        }
        Call::Drag { .. } | Call::DropDrag | Call::AbandonDrag => Some("no drag is open"),
        _ => None,
    }
}

/// The numbers' own words, the first being 1.
const MEANINGS: [&str; 15] = [
    "the sheet breaks its layout",
    "the book breaks its layout",
    "a key array is not as long as the sheet has keys",
    "the keys break the key rules",
    "the player's state is broken, or an undo's or redo's key is not as its entry says",
    "no such animation, or nothing is active",
    "no such track in the active animation, key, channel, pane, material, layer or origin",
    "a number is not finite, or UV layers or SRTs are not whole entries",
    "the clamped frame is above the next key's",
    "the curve is not Hermite",
    "nothing to undo, or to redo",
    "an angle above 3,600 degrees",
    "an output is not exactly as long as it must be",
    "the buffer is not as long as the sheet",
    "a drag is open, or none is",
];
