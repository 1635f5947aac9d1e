//! Document 01, "Channels", in plain words of its own, beside the Rust's whole
//! reading: the form in which the published text is handed a sheet and a book
//! is the one that document 01 means.

use cases::bits::bits_of;
use cases::curves::answer as curve_answer;
use cases::format::sheet::{Sheet, Target};
use cases::random::Random;
use cases::readings::whole::{self, MATERIAL_CHANNELS, PANE_CHANNELS};
use cases::readings::{Case, addressed, published_form, some};

/// What a target reads at a frame: the channel's number, or nothing for a
/// texture index from X up.
fn number(sheet: &Sheet, target: &Target, frame: f32) -> Option<f32> {
    let curve = published_form::keys_of(sheet, target).curve();
    let answer = curve_answer(&curve, frame);
    let value = f32::from_bits(answer.value);
    let whole = answer.whole as usize;
    match &target.code {
        b"FLVI" => Some(if whole == 0 { 0.0 } else { 1.0 }),
        b"FLVC" => Some(value / 255.0),
        b"FLTP" => (whole < sheet.textures.len()).then_some(whole as f32),
        b"FLMC" => Some(f32::from(value.round().clamp(0.0, 255.0) as u8)),
        _ => Some(value),
    }
}

/// The last target that addresses a channel decides it.
fn plain_reading(case: &Case) -> whole::Reading {
    let mut channels = vec![None; addressed::channels(&case.book)];
    if let Some((animation, frame)) = case.active {
        let deciding = addressed::deciding(&case.sheet, &case.book, animation);
        for (channel, target) in channels.iter_mut().zip(deciding) {
            *channel = target.and_then(|t| number(&case.sheet, &case.sheet.targets[t], frame));
        }
    }
    whole::Reading {
        marks: channels.iter().map(|c| c.is_some() as u8).collect(),
        numbers: channels.iter().map(|c| c.map_or(0, bits_of)).collect(),
    }
}

#[test]
fn the_rust_reads_as_document_01_says() {
    let mut random = Random::new(1);
    let mut pane_marks = [0; PANE_CHANNELS];
    let mut material_marks = [0; MATERIAL_CHANNELS];
    for _ in 0..100_000 {
        let case = some::case(&mut random);
        let reading = whole::reading(&case.book, &whole::state(&case));
        assert_eq!(reading, plain_reading(&case), "{case:?}");
        let (panes, materials) = reading
            .marks
            .split_at(PANE_CHANNELS * case.book.panes.len());
        for (i, mark) in panes.iter().enumerate() {
            pane_marks[i % PANE_CHANNELS] += u64::from(*mark);
        }
        for (i, mark) in materials.iter().enumerate() {
            material_marks[i % MATERIAL_CHANNELS] += u64::from(*mark);
        }
    }
    // The cases reach every channel.
    assert!(pane_marks.iter().all(|&n| n > 100), "{pane_marks:?}");
    assert!(
        material_marks.iter().all(|&n| n > 100),
        "{material_marks:?}"
    );
}
