//! The bytes of a sheet and of a book (docs/FORMAT.md), of rows that are within their limits.

use super::book::{BookBuilder, MaterialBuilder, PaneBuilder};
use super::sheet::{ContentRow, SheetBuilder, TrackRow};
use crate::answers::{Srt, Transform};
use crate::view::{INFLUENCES_ALPHA, NAME, NO_PARENT, VISIBLE};

fn put_u16s(out: &mut Vec<u8>, numbers: &[u16]) {
    out.extend(numbers.iter().flat_map(|n| n.to_le_bytes()));
}

fn put_f32s(out: &mut Vec<u8>, numbers: &[f32]) {
    out.extend(numbers.iter().flat_map(|x| x.to_le_bytes()));
}

fn put_name(out: &mut Vec<u8>, name: &str) {
    let end = out.len() + NAME;
    out.extend(name.bytes());
    out.resize(end, 0);
}

/// How many rows there are. The limits are all below 65,536.
fn count<T>(rows: &[T]) -> u16 {
    rows.len() as u16
}

pub(super) fn sheet(sheet: &SheetBuilder) -> Vec<u8> {
    let contents: Vec<(usize, &ContentRow)> = (sheet.animations.iter().enumerate())
        .flat_map(|(number, a)| a.contents.iter().map(move |c| (number, c)))
        .collect();
    let tracks: Vec<(usize, &TrackRow)> = (contents.iter().enumerate())
        .flat_map(|(number, (_, c))| c.tracks.iter().map(move |t| (number, t)))
        .collect();
    let keys: Vec<_> = tracks.iter().flat_map(|(_, t)| &t.keys).collect();
    let sizes = [
        count(&sheet.animations),
        count(&contents),
        count(&tracks),
        count(&keys),
        count(&sheet.textures),
        0,
    ];

    let mut out = vec![];
    put_u16s(&mut out, &sizes);
    for animation in &sheet.animations {
        put_u16s(&mut out, &[animation.frames]);
        out.extend([animation.looping, animation.next.is_some()].map(u8::from));
        put_name(&mut out, animation.next.as_deref().unwrap_or(""));
    }
    for (animation, content) in &contents {
        out.extend([*animation as u8, content.kind.number(), 0, 0]);
        put_name(&mut out, &content.name);
    }
    put_tracks(&mut out, &tracks);
    for name in &sheet.textures {
        put_name(&mut out, name);
    }
    for key in &keys {
        put_f32s(&mut out, &[key.frame]);
    }
    for key in &keys {
        put_f32s(&mut out, &[key.value, key.slope]);
    }
    out
}

/// The targets, each with its content's number. The keys of one follow those of the one before.
fn put_tracks(out: &mut Vec<u8>, tracks: &[(usize, &TrackRow)]) {
    let mut first = 0;
    for (content, track) in tracks {
        put_u16s(out, &[*content as u16]);
        out.extend([track.address.layer, track.address.raw]);
        out.extend(track.address.code);
        out.extend([track.curve.number(), 0]);
        put_u16s(out, &[first, count(&track.keys)]);
        first += count(&track.keys);
    }
}

pub(super) fn book(book: &BookBuilder) -> Vec<u8> {
    let mut out = vec![];
    put_u16s(&mut out, &[count(&book.panes), count(&book.materials)]);
    for pane in &book.panes {
        let parent = book
            .panes
            .iter()
            .position(|p| Some(&p.label) == pane.parent.as_ref());
        put_pane(&mut out, pane, parent.map_or(NO_PARENT, |row| row as u16));
    }
    for material in &book.materials {
        put_material(&mut out, material);
    }
    out
}

fn put_pane(out: &mut Vec<u8>, pane: &PaneBuilder, parent: u16) {
    put_name(out, &pane.label);
    put_u16s(out, &[parent]);
    let visible = if pane.visible { VISIBLE } else { 0 };
    let influences = if pane.influences_alpha {
        INFLUENCES_ALPHA
    } else {
        0
    };
    let (horizontal, vertical) = pane.origins;
    out.extend([visible | influences, pane.alpha]);
    out.extend([horizontal.number(), vertical.number(), 0, 0]);
    let Transform {
        translation,
        rotation,
        scale,
        size,
    } = pane.transform;
    put_f32s(out, &[translation.x, translation.y, translation.z]);
    put_f32s(out, &[rotation.x, rotation.y, rotation.z]);
    put_f32s(out, &[scale.x, scale.y, size.x, size.y]);
}

fn put_material(out: &mut Vec<u8>, material: &MaterialBuilder) {
    put_name(out, &material.name);
    for texture in &material.textures {
        put_name(out, texture);
    }
    for Srt {
        translate,
        rotate,
        scale,
    } in material.srts
    {
        put_f32s(out, &[translate.x, translate.y, rotate, scale.x, scale.y]);
    }
}
