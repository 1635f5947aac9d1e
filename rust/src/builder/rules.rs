//! The rules of a sheet and of a book that types don't hold: limits, names and numbers. The first row that breaks one is
//! told. Besides what the proved code declines they decline names with a zero byte, which might not come back as they are,
//! empty names of contents that reach a pane or a material, empty next names, and parents that there are not.

use super::book::{BookBuilder, MaterialBuilder, PaneBuilder};
use super::error::{BuildError, Problem, Row};
use super::sheet::{AnimationBuilder, ContentRow, SheetBuilder, TrackRow};
use crate::address::ContentKind;
use crate::answers::{Srt, Transform};
use crate::view::{Curve, NAME};

const ANIMATIONS: usize = 8;
const CONTENTS: usize = 64;
const TRACKS: usize = 256;
const KEYS: usize = 2_048;
const TEXTURES: usize = 64;
const PANES: usize = 64;
const MATERIALS: usize = 32;

/// Rows of the sheet so far, over all animations.
#[derive(Default)]
struct Counted {
    contents: usize,
    tracks: usize,
    keys: usize,
}

/// The number of the next row, counted.
fn next(count: &mut usize) -> usize {
    *count += 1;
    *count - 1
}

fn limit(number: usize, most: usize) -> Result<(), Problem> {
    if number < most {
        Ok(())
    } else {
        Err(Problem::TooMany { most })
    }
}

/// A name that fits its field and comes back as it is.
fn name(name: &str) -> Result<(), Problem> {
    if name.len() > NAME {
        return Err(Problem::LongName { bytes: name.len() });
    }
    if name.contains('\0') {
        return Err(Problem::ZeroByte);
    }
    Ok(())
}

fn filled_name(text: &str) -> Result<(), Problem> {
    if text.is_empty() {
        return Err(Problem::EmptyName);
    }
    name(text)
}

fn finite(what: &'static str, numbers: &[f32]) -> Result<(), Problem> {
    match numbers.iter().find(|x| !x.is_finite()) {
        Some(&number) => Err(Problem::NotFinite { what, number }),
        None => Ok(()),
    }
}

pub(super) fn sheet(sheet: &SheetBuilder) -> Result<(), BuildError> {
    if sheet.animations.is_empty() {
        return Err(BuildError::new(
            Row::Sheet,
            Row::Sheet,
            Problem::NoAnimation,
        ));
    }
    let mut counted = Counted::default();
    for (number, row) in sheet.animations.iter().enumerate() {
        animation(number, row, &mut counted)?;
    }
    for (number, text) in sheet.textures.iter().enumerate() {
        let row = Row::Texture(number);
        limit(number, TEXTURES)
            .and_then(|()| name(text))
            .map_err(|problem| BuildError::new(row, format_args!("{row} ({text:?})"), problem))?;
    }
    Ok(())
}

fn animation(
    number: usize,
    animation: &AnimationBuilder,
    counted: &mut Counted,
) -> Result<(), BuildError> {
    let row = Row::Animation(number);
    limit(number, ANIMATIONS).map_err(|problem| BuildError::new(row, row, problem))?;
    if let Some(next) = &animation.next {
        filled_name(next).map_err(|problem| {
            BuildError::new(row, format_args!("{row}, next name {next:?}"), problem)
        })?;
    }
    for row in &animation.contents {
        content(row, counted).map_err(|error| error.within(Row::Animation(number)))?;
    }
    Ok(())
}

fn content(content: &ContentRow, counted: &mut Counted) -> Result<(), BuildError> {
    let number = next(&mut counted.contents);
    let row = Row::Content(number);
    let place = format!("{row} ({} {:?})", content.kind, content.name);
    let named = match content.kind {
        ContentKind::Pane | ContentKind::PaneExt | ContentKind::Material => filled_name,
        ContentKind::User | ContentKind::StateMachine => name,
    };
    limit(number, CONTENTS)
        .and_then(|()| named(&content.name))
        .map_err(|problem| BuildError::new(row, &place, problem))?;
    for row in &content.tracks {
        track(content.kind, row, counted).map_err(|error| error.within(&place))?;
    }
    Ok(())
}

fn track(kind: ContentKind, track: &TrackRow, counted: &mut Counted) -> Result<(), BuildError> {
    let number = next(&mut counted.tracks);
    let row = Row::Track(number);
    let place = match track.address.channel(kind) {
        Some(channel) => format!("{row} ({channel})"),
        None => format!("{row} ({})", track.address),
    };
    limit(number, TRACKS).map_err(|problem| BuildError::new(row, &place, problem))?;
    for key in 0..track.keys.len() {
        let row = Row::Key { track: number, key };
        limit(next(&mut counted.keys), KEYS)
            .and_then(|()| key_rules(track, key))
            .map_err(|problem| {
                BuildError::new(row, format_args!("key {key}"), problem).within(&place)
            })?;
    }
    Ok(())
}

/// One key, with the frame of the one before it. Frames and slopes of Constant curves and slopes of Step curves are +0 by
/// the calls that add them.
fn key_rules(track: &TrackRow, number: usize) -> Result<(), Problem> {
    let key = track.keys[number];
    finite("frame", &[key.frame])?;
    finite("value", &[key.value])?;
    finite("slope", &[key.slope])?;
    if track.curve == Curve::Step && !is_whole(key.value) {
        return Err(Problem::NotWhole { value: key.value });
    }
    let before = number.checked_sub(1).map(|n| track.keys[n].frame);
    match before {
        Some(before) if key.frame < before => Err(Problem::FrameFalls {
            before,
            frame: key.frame,
        }),
        _ => Ok(()),
    }
}

/// Bit for bit its own cut to 16 bits, so that −0 is none.
fn is_whole(value: f32) -> bool {
    f32::from(value as u16).to_bits() == value.to_bits()
}

pub(super) fn book(book: &BookBuilder) -> Result<(), BuildError> {
    if book.panes.is_empty() {
        return Err(BuildError::new(Row::Book, Row::Book, Problem::NoPane));
    }
    for (number, own) in book.panes.iter().enumerate() {
        let row = Row::Pane(number);
        limit(number, PANES)
            .and_then(|()| pane(own, &book.panes[..number]))
            .map_err(|problem| {
                BuildError::new(row, format_args!("{row} ({:?})", own.label), problem)
            })?;
    }
    for (number, own) in book.materials.iter().enumerate() {
        let row = Row::Material(number);
        let place = format!("{row} ({:?})", own.name);
        limit(number, MATERIALS)
            .and_then(|()| material(own, &book.materials[..number]))
            .map_err(|problem| BuildError::new(row, &place, problem))?;
        for (slot, texture) in own.textures.iter().enumerate() {
            name(texture).map_err(|problem| {
                BuildError::new(row, format_args!("texture {slot} ({texture:?})"), problem)
                    .within(&place)
            })?;
        }
    }
    Ok(())
}

fn pane(pane: &PaneBuilder, earlier: &[PaneBuilder]) -> Result<(), Problem> {
    filled_name(&pane.label)?;
    if let Some(number) = earlier.iter().position(|p| p.label == pane.label) {
        let by = Row::Pane(number);
        return Err(Problem::NameTaken { by });
    }
    if let Some(label) = &pane.parent {
        parent(label, earlier)?;
    }
    let Transform {
        translation,
        rotation,
        scale,
        size,
    } = pane.transform;
    finite(
        "translation",
        &[translation.x, translation.y, translation.z],
    )?;
    finite("rotation", &[rotation.x, rotation.y, rotation.z])?;
    finite("scale", &[scale.x, scale.y])?;
    finite("size", &[size.x, size.y])
}

fn parent(label: &str, earlier: &[PaneBuilder]) -> Result<(), Problem> {
    if earlier.iter().any(|p| p.label == label) {
        return Ok(());
    }
    let label = label.into();
    Err(Problem::NoParent { label })
}

fn material(material: &MaterialBuilder, earlier: &[MaterialBuilder]) -> Result<(), Problem> {
    filled_name(&material.name)?;
    if let Some(number) = earlier.iter().position(|m| m.name == material.name) {
        let by = Row::Material(number);
        return Err(Problem::NameTaken { by });
    }
    let layers = ["SRT of layer 0", "SRT of layer 1", "SRT of layer 2"];
    for (what, srt) in layers.into_iter().zip(material.srts) {
        let Srt {
            translate,
            rotate,
            scale,
        } = srt;
        let numbers = [translate.x, translate.y, rotate, scale.x, scale.y];
        finite(what, &numbers)?;
    }
    Ok(())
}
