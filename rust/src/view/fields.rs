//! Fields at an offset of accepted bytes.

use crate::answers::Srt;
use crate::formats::Name;
use crate::raw::{Vector2f, Vector3f};

/// Bytes of a name.
pub(crate) const NAME: usize = 24;

pub(super) fn u16_at(bytes: &[u8], at: usize) -> u16 {
    u16::from_le_bytes([bytes[at], bytes[at + 1]])
}

pub(super) fn name_at(bytes: &[u8], at: usize) -> Name {
    let mut name = Name([0; NAME]);
    name.0.copy_from_slice(&bytes[at..at + NAME]);
    name
}

/// `N` floats, one after the other.
fn f32s_at<const N: usize>(bytes: &[u8], at: usize) -> [f32; N] {
    std::array::from_fn(|n| {
        let at = at + 4 * n;
        f32::from_le_bytes([bytes[at], bytes[at + 1], bytes[at + 2], bytes[at + 3]])
    })
}

pub(super) fn vector2_at(bytes: &[u8], at: usize) -> Vector2f {
    let [x, y] = f32s_at(bytes, at);
    Vector2f { x, y }
}

pub(super) fn vector3_at(bytes: &[u8], at: usize) -> Vector3f {
    let [x, y, z] = f32s_at(bytes, at);
    Vector3f { x, y, z }
}

pub(super) fn srt_at(bytes: &[u8], at: usize) -> Srt {
    let [rotate] = f32s_at(bytes, at + 8);
    Srt {
        translate: vector2_at(bytes, at),
        rotate,
        scale: vector2_at(bytes, at + 12),
    }
}
