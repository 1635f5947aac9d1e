//! The picture of one track: its channel as it reads, and the track's keys.

use dovebolt::{Channel, Curve, Player, Refusal, Track};

use crate::drawing::axis::Axis;
use crate::drawing::keys::{self, Key};
use crate::drawing::menu::Menu;
use crate::drawing::plot::{self, Plot, quiet};
use crate::drawing::samples::{Place, ends, samples};
use crate::drawing::unit::Unit;
use crate::drawing::words;
use crate::picture::{self, About};

const MOST_TOLD: usize = 20;

/// The pane's or material's name and the channel's; of the two, the first is cut.
fn heading(name: &str, channel: Channel) -> String {
    let channel = format!(" · {channel}");
    let room = picture::HEADING_ROOM - words::width(&channel, picture::HEADING);
    words::cut(name, picture::HEADING, room) + &channel
}

/// What the picture shows, in words.
fn about(menu: &Menu, track: &Track, counts: &Track, keys: &[Key], gaps: bool) -> String {
    let line = if counts.number == track.number {
        "The line is what the library reads".to_string()
    } else {
        format!("The line is track {}'s, which counts", counts.number)
    };
    let gaps = if gaps {
        "; where it is missing, there is nothing to draw: no override, or no finite number"
    } else {
        ""
    };
    let frame = if track.curve == Curve::Constant {
        "the frame from which it holds"
    } else {
        "its frame"
    };
    let plural = if keys.len() == 1 { "" } else { "s" };
    format!(
        "{}, track {}: {:?}, {} key{plural}. {line}{gaps}. A label is a key's stored value at {frame}.",
        menu.title(),
        track.number,
        track.curve,
        keys.len(),
    )
}

/// The keys' labels, for those who can't see the picture.
fn told(keys: &[Key]) -> String {
    if keys.is_empty() {
        return "No keys.".to_string();
    }
    let labels: Vec<&str> = keys
        .iter()
        .take(MOST_TOLD)
        .map(|k| k.label.as_str())
        .collect();
    let more = match keys.len().saturating_sub(MOST_TOLD) {
        0 => String::new(),
        n => format!(" and {n} more"),
    };
    format!("Keys: {}{more}.", labels.join(", "))
}

/// The picture. `counts` is the last track of the same channel, whose readings count.
pub fn picture(
    player: &mut Player,
    menu: &Menu,
    track: &Track,
    place: Place,
    counts: &Track,
) -> Result<String, Refusal> {
    let (_, channel) = place;
    let unit = Unit::of(channel);
    let keys = keys::of(&menu.keys, track, unit);
    let ends = ends(menu, &keys);
    let turns = keys::of(&menu.keys, counts, unit);
    let samples = samples(player, menu, place, ends, &turns)?;
    let drawn = samples.iter().filter_map(|s| s.1);
    let readings: Vec<f64> = keys.iter().map(|k| k.reading).chain(drawn).collect();
    let gaps = samples.iter().any(|s| s.1.is_none());

    let title = format!("{} · {channel}", track.name);
    let about = about(menu, track, counts, &keys, gaps);
    let (mut body, below) = picture::heading(&heading(&track.name.text(), channel), &about);
    let plot = Plot::new(below + 34.0, ends, Axis::new(unit, menu.sheet, &readings));
    let stretches = plot.stretches(&samples, unit.whole() || counts.curve != Curve::Hermite);
    let (marks, without) = keys::draw(&plot, &keys, &stretches);
    body += &(plot.axes() + &plot::line(&stretches, &plot::SOLID) + &marks);
    if without > 0 {
        let words = format!("{without} of {} keys have no room for a label", keys.len());
        body += &quiet(plot.rect.2, plot.rect.3 + 37.0, "end", &words);
    }
    let description = format!("{about} {}", told(&keys));
    Ok(picture::picture(
        plot.below(),
        &About { title, description },
        &body,
    ))
}
