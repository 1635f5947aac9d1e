//! A small menu in bytes, for the examples of this documentation and for tests.
//!
//! The sheet has two animations. Animation 0 is 8 frames long and names "Idle" as the next; animation 1 is 60 frames long
//! and loops. The book has the panes "Root" and "Logo" and the material "Glow".
//!
//! | track | animation | what | keys (frame, value, slope) |
//! |---|---|---|---|
//! | 0 | 0 | "Logo" visible, Step | (0, 0), (4, 1) |
//! | 1 | 0 | "Glow" texture_0, Step | (0, 0), (4, 1) |
//! | 2 | 0 | "Glow" black_red, Constant | 200 |
//! | 3 | 0 | "Logo" translate_x, Hermite | (0, 0, 0), (8, 16, 0) |
//! | 4 | 1 | "Logo" alpha, Hermite | (0, 255, 0), (60, 51, 0) |
//!
//! ```
//! let (player, keys) = dovebolt::Player::load(&dovebolt::example::sheet())?;
//! assert_eq!(player.selection(), None);
//! assert_eq!(keys.values, [0.0, 1.0, 0.0, 1.0, 200.0, 0.0, 16.0, 255.0, 51.0]);
//! # Ok::<(), dovebolt::Refusal>(())
//! ```

/// A track: its content, raw number, code, curve (0 Constant, 1 Step, 2 Hermite) and keys.
struct Track(u16, u8, &'static [u8; 4], u8, &'static [[f32; 3]]);

/// Animation, type (0 Pane, 1 Material) and name of each content.
const CONTENTS: [(u8, u8, &str); 4] = [
    (0, 0, "Logo"),
    (0, 1, "Glow"),
    (0, 0, "Logo"),
    (1, 0, "Logo"),
];

const TRACKS: [Track; 5] = [
    Track(0, 0, b"FLVI", 1, &[[0.0, 0.0, 0.0], [4.0, 1.0, 0.0]]),
    Track(1, 0, b"FLTP", 1, &[[0.0, 0.0, 0.0], [4.0, 1.0, 0.0]]),
    Track(1, 0, b"FLMC", 0, &[[0.0, 200.0, 0.0]]),
    Track(2, 0, b"FLPA", 2, &[[0.0, 0.0, 0.0], [8.0, 16.0, 0.0]]),
    Track(3, 16, b"FLVC", 2, &[[0.0, 255.0, 0.0], [60.0, 51.0, 0.0]]),
];

const TEXTURES: [&str; 2] = ["day", "night"];

fn put_u16s(out: &mut Vec<u8>, numbers: &[u16]) {
    out.extend(numbers.iter().flat_map(|n| n.to_le_bytes()));
}

fn put_f32s(out: &mut Vec<u8>, numbers: &[f32]) {
    out.extend(numbers.iter().flat_map(|x| x.to_le_bytes()));
}

fn put_name(out: &mut Vec<u8>, name: &str) {
    let end = out.len() + 24;
    out.extend(name.bytes());
    out.resize(end, 0);
}

/// The sheet.
pub fn sheet() -> Vec<u8> {
    let keys: Vec<[f32; 3]> = TRACKS.iter().flat_map(|t| t.4).copied().collect();
    let mut out = vec![];
    put_u16s(
        &mut out,
        &[
            2,
            CONTENTS.len() as u16,
            TRACKS.len() as u16,
            keys.len() as u16,
            TEXTURES.len() as u16,
            0,
        ],
    );
    for (frames, looping, next) in [(8, 0, "Idle"), (60, 1, "")] {
        put_u16s(&mut out, &[frames]);
        out.extend([looping, u8::from(!next.is_empty())]);
        put_name(&mut out, next);
    }
    for (animation, kind, name) in CONTENTS {
        out.extend([animation, kind, 0, 0]);
        put_name(&mut out, name);
    }
    let mut first = 0;
    for Track(content, raw, code, curve, own) in TRACKS {
        put_u16s(&mut out, &[content]);
        out.extend([0, raw]);
        out.extend(code);
        out.extend([curve, 0]);
        put_u16s(&mut out, &[first, own.len() as u16]);
        first += own.len() as u16;
    }
    for name in TEXTURES {
        put_name(&mut out, name);
    }
    for [frame, ..] in &keys {
        put_f32s(&mut out, &[*frame]);
    }
    for [_, value, slope] in &keys {
        put_f32s(&mut out, &[*value, *slope]);
    }
    out
}

/// The book. The numbers of "Logo" and of the SRTs of "Glow" differ from each other.
pub fn book() -> Vec<u8> {
    let mut out = vec![];
    put_u16s(&mut out, &[2, 1]);
    for (label, parent, alpha, numbers) in [
        (
            "Root",
            65535,
            255,
            [0.0, 0.0, 0.0, 0.0, 0.0, 0.0, 1.0, 1.0, 100.0, 50.0],
        ),
        (
            "Logo",
            0,
            51,
            [1.0, 2.0, 3.0, 4.0, 5.0, 6.0, 7.0, 8.0, 9.0, 10.0],
        ),
    ] {
        put_name(&mut out, label);
        put_u16s(&mut out, &[parent]);
        // visible, and influences alpha; both origins are the centre
        out.extend([3, alpha, 0, 0, 0, 0]);
        put_f32s(&mut out, &numbers);
    }
    put_name(&mut out, "Glow");
    for texture in ["plain", "mask", ""] {
        put_name(&mut out, texture);
    }
    for layer in 0..3 {
        let from = layer as f32 * 5.0;
        put_f32s(
            &mut out,
            &[from + 1.0, from + 2.0, from + 3.0, from + 4.0, from + 5.0],
        );
    }
    out
}
