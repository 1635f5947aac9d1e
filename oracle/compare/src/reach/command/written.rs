//! What the command writes, line by line.

use super::{Largest, Line, Named};
use crate::json::Value;
use cases::bits::bits_of;
use cases::calls::One;

/// The line that an object is, or nothing where it is none.
pub fn line(line: &Value) -> Option<Line> {
    if let Some(animation) = line.count("animation") {
        return of_animation(line, animation);
    }
    if let Some(name) = line.text("pane") {
        return Some(Line::Pane {
            name: name.to_string(),
            touched: line.flag("touched")?,
            own: line.flag("own")?,
            follows: line.flag("follows")?,
        });
    }
    if let Some(name) = line.text("material") {
        return Some(Line::Material {
            name: name.to_string(),
            touched: line.flag("touched")?,
        });
    }
    let counts = [
        "tracks",
        "keys",
        "touched_channels",
        "touched_panes",
        "touched_materials",
        "untouched_panes",
        "untouched_materials",
    ];
    let counts: Option<Vec<usize>> = counts.iter().map(|key| line.count(key)).collect();
    counts?.try_into().ok().map(Line::Counts)
}

fn of_animation(line: &Value, animation: usize) -> Option<Line> {
    let Some(track) = line.count("track") else {
        line.flag("follows").filter(|&follows| follows)?;
        return Some(Line::Follows {
            animation,
            pane: line.text("pane")?.to_string(),
            frames: runs_of(line)?,
        });
    };
    match line.text("changes") {
        Some("nothing") => {}
        Some(_) => return None,
        None => {
            let frames = runs_of(line)?;
            return Some(Line::Changes {
                animation,
                track,
                channel: named(line)?,
                largest: match frames[..] {
                    [] if line.get("at").is_none() => None,
                    _ => Some(largest_of(line)?),
                },
                frames,
            });
        }
    }
    match line.count("decided_by") {
        Some(by) => Some(Line::Decided {
            animation,
            track,
            channel: named(line)?,
            by,
        }),
        None => line
            .text("why")
            .map(|_| Line::Unaddressed { animation, track }),
    }
}

fn named(line: &Value) -> Option<Named> {
    let of_pane = line.text("pane").is_some();
    let name = line.text("pane").or_else(|| line.text("material"))?;
    Some(Named {
        of_pane,
        name: name.to_string(),
        channel: line.text("channel")?.to_string(),
    })
}

fn runs_of(line: &Value) -> Option<Vec<[usize; 2]>> {
    let runs = line.list("frames")?.iter().map(|run| match run {
        Value::List(ends) => match &ends[..] {
            [from, to] => Some([from.whole()?, to.whole()?]),
            _ => None,
        },
        _ => None,
    });
    runs.collect()
}

fn largest_of(line: &Value) -> Option<Largest> {
    Some(Largest {
        size: line.float("change").map(bits_of),
        at: line.count("at")?,
        before: reading_of(line.get("before")?)?,
        after: reading_of(line.get("after")?)?,
    })
}

fn reading_of(side: &Value) -> Option<One> {
    if let Some(x) = side.float("number") {
        return Some(One::Number(bits_of(x)));
    }
    if let Some(shown) = side.flag("shown") {
        return Some(One::Shown(shown));
    }
    if let Some(row) = side.count("row") {
        return Some(One::Texture(row as u16));
    }
    if let Some(level) = side.count("level") {
        return Some(One::Level(level as u8));
    }
    (side.text("answer") == Some("none")).then_some(One::Nothing)
}
