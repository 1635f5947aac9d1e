//! What the command must write.

use super::{Largest, Line, Named};
use crate::reach::menu::{Menu, Shown};
use crate::reach::pair::{Pair, differs};
use cases::bits::bits_of;
use cases::calls::One;
use cases::calls::readings::{material_reading, pane_reading};
use cases::format::text_of;
use cases::reach::{self, FOLLOWS, OWN};
use cases::readings::addressed;
use cases::readings::whole::{MATERIAL_CHANNELS, PANE_CHANNELS, Reading};
use dovebolt::{MaterialChannel, PaneChannel};

pub fn lines(pair: &Pair) -> Vec<Line> {
    let menu = pair.menu;
    let mut lines = Vec::new();
    let mut channels = vec![0; addressed::channels(&menu.book)];
    let mut panes = vec![0; menu.book.panes.len()];
    for animation in menu.animations() {
        let own = reach::channels(&menu.sheet, &menu.book, pair.before, pair.after, animation);
        let marks = reach::panes(&menu.book, &own);
        lines.extend(tracks(pair, animation));
        lines.extend(follows(pair, animation, &marks));
        channels
            .iter_mut()
            .zip(own)
            .for_each(|(all, own)| *all |= own);
        panes
            .iter_mut()
            .zip(marks)
            .for_each(|(all, own)| *all |= own);
    }
    lines.extend(summary(pair, &channels, &panes));
    lines
}

fn tracks(pair: &Pair, animation: usize) -> Vec<Line> {
    let Menu {
        sheet,
        book,
        deciding,
        ..
    } = pair.menu;
    let mut lines = Vec::new();
    for (track, target) in sheet.targets.iter().enumerate() {
        let content = &sheet.contents[usize::from(target.content)];
        let own = usize::from(content.animation) == animation;
        if !own || reach::same_track(target, pair.before, pair.after) {
            continue;
        }
        lines.push(match addressed::channel(sheet, book, target) {
            None => Line::Unaddressed { animation, track },
            Some(channel) => match deciding[animation][channel] {
                Some(by) if by != track => Line::Decided {
                    animation,
                    track,
                    channel: name_of(pair.menu, channel),
                    by,
                },
                _ => changes(pair, animation, track, channel),
            },
        });
    }
    lines
}

fn changes(pair: &Pair, animation: usize, track: usize, channel: usize) -> Line {
    let panes = pair.menu.book.panes.len();
    let read = |reading: &Reading| {
        let number = f32::from_bits(reading.numbers[channel]);
        let read = (reading.marks[channel] == 1).then_some(number);
        match channel.checked_sub(PANE_CHANNELS * panes) {
            None => pane_reading(channel % PANE_CHANNELS, read),
            Some(rest) => material_reading(rest % MATERIAL_CHANNELS, read),
        }
    };
    let mut largest: Option<(f32, Largest)> = None;
    let apart: Vec<bool> = whole_frames(pair, animation)
        .map(|(at, old, new)| {
            let apart = differs(&old.channels, &new.channels, channel);
            let (before, after) = (read(&old.channels), read(&new.channels));
            let size = size(before, after);
            let order = size.unwrap_or(1.0);
            let above = |x: f32| !x.is_nan() && (order.is_nan() || x < order);
            if apart && largest.as_ref().is_none_or(|(most, _)| above(*most)) {
                let size = size.map(bits_of);
                largest = Some((
                    order,
                    Largest {
                        size,
                        at,
                        before,
                        after,
                    },
                ));
            }
            apart
        })
        .collect();
    Line::Changes {
        animation,
        track,
        channel: name_of(pair.menu, channel),
        frames: runs(&apart),
        largest: largest.map(|(_, largest)| largest),
    }
}

/// How far numbers and levels are apart.
fn size(before: One, after: One) -> Option<f32> {
    match (before, after) {
        (One::Number(a), One::Number(b)) => Some((f32::from_bits(b) - f32::from_bits(a)).abs()),
        (One::Level(a), One::Level(b)) => Some(f32::from(a.abs_diff(b))),
        _ => None,
    }
}

fn whole_frames<'a>(
    pair: &'a Pair,
    animation: usize,
) -> impl Iterator<Item = (usize, &'a Shown, &'a Shown)> {
    let count = usize::from(pair.menu.sheet.animations[animation].frame_count) + 1;
    let shown = pair.old[animation].iter().zip(&pair.new[animation]);
    shown
        .take(count)
        .enumerate()
        .map(|(at, (old, new))| (at, old, new))
}

fn runs(apart: &[bool]) -> Vec<[usize; 2]> {
    let mut runs: Vec<[usize; 2]> = Vec::new();
    for at in (0..apart.len()).filter(|&at| apart[at]) {
        match runs.last_mut() {
            Some([_, to]) if *to + 1 == at => *to = at,
            _ => runs.push([at, at]),
        }
    }
    runs
}

fn follows(pair: &Pair, animation: usize, marks: &[u8]) -> Vec<Line> {
    let panes = pair.menu.book.panes.iter().enumerate();
    panes
        .filter(|(row, _)| marks[*row] & FOLLOWS != 0)
        .map(|(row, pane)| {
            let look = |shown: &Shown| [shown.cascade[row][0], shown.cascade[row][1]];
            let apart = whole_frames(pair, animation).map(|(_, old, new)| look(old) != look(new));
            Line::Follows {
                animation,
                pane: text_of(&pane.label).to_string(),
                frames: runs(&apart.collect::<Vec<_>>()),
            }
        })
        .collect()
}

fn summary(pair: &Pair, channels: &[u8], panes: &[u8]) -> Vec<Line> {
    let book = &pair.menu.book;
    let (own, rest) = channels.split_at(PANE_CHANNELS * book.panes.len());
    let of_panes = book.panes.iter().zip(panes).map(|(pane, mark)| Line::Pane {
        name: text_of(&pane.label).to_string(),
        touched: *mark != 0,
        own: mark & OWN != 0,
        follows: mark & FOLLOWS != 0,
    });
    let materials: Vec<bool> = rest
        .chunks(MATERIAL_CHANNELS)
        .map(|c| c.contains(&1))
        .collect();
    let rows = book.materials.iter().zip(&materials);
    let of_materials = rows.map(|(material, &touched)| Line::Material {
        name: text_of(&material.name).to_string(),
        touched,
    });
    let keys = pair.differing();
    let mut tracks: Vec<usize> = keys.iter().map(|place| place.track).collect();
    tracks.dedup();
    let touched_panes = panes.iter().filter(|&&mark| mark != 0).count();
    let touched_materials = materials.iter().filter(|&&touched| touched).count();
    let counts = [
        tracks.len(),
        keys.len(),
        own.iter().chain(rest).filter(|&&mark| mark == 1).count(),
        touched_panes,
        touched_materials,
        panes.len() - touched_panes,
        materials.len() - touched_materials,
    ];
    let counts = std::iter::once(Line::Counts(counts));
    of_panes.chain(of_materials).chain(counts).collect()
}

fn name_of(menu: &Menu, channel: usize) -> Named {
    let panes = menu.book.panes.len();
    match channel.checked_sub(PANE_CHANNELS * panes) {
        None => {
            let own = PaneChannel::from_number((channel % PANE_CHANNELS) as u16);
            Named {
                of_pane: true,
                name: text_of(&menu.book.panes[channel / PANE_CHANNELS].label).to_string(),
                channel: own.expect("a channel").name().to_string(),
            }
        }
        Some(rest) => {
            let own = MaterialChannel::from_number((rest % MATERIAL_CHANNELS) as u16);
            Named {
                of_pane: false,
                name: text_of(&menu.book.materials[rest / MATERIAL_CHANNELS].name).to_string(),
                channel: own.expect("a channel").name().to_string(),
            }
        }
    }
}
