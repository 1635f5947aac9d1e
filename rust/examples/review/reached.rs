//! The page's part on what the edits reach: each pane and material that is touched, by animation.

use std::fmt::Write;

use crate::compare::{Change, Compared, Line, Owner, What};
use crate::edits::Edit;
use crate::html;
use crate::pair::Pair;
use crate::panes::{self, Handed};

/// A pane's or a material's name, with its number.
pub fn owner(owner: &Owner) -> String {
    let (name, kind, number) = match owner {
        Owner::Pane(number, name) => (name, "pane", number),
        Owner::Material(number, name) => (name, "material", number),
    };
    format!(
        "{} <span class=\"number\">{kind} {number}</span>",
        html::name(name)
    )
}

/// `before → after`, which is read out as words.
pub fn arrow([before, after]: [String; 2]) -> String {
    format!(
        "{} <span aria-hidden=\"true\">→</span><span class=\"spoken\"> becomes </span> {}",
        html::escaped(&before),
        html::escaped(&after)
    )
}

/// Which panes above hand this down.
fn followed(pair: &Pair, animation: u16, line: &Line) -> String {
    let Owner::Pane(pane, _) = line.owner else {
        return String::new();
    };
    let handed = panes::followed(pair.book, pair.touched(animation), pane);
    let hands = |h: &&Handed| match line.what {
        What::Shown => h.visible,
        What::Alpha => h.alpha,
        What::Own(_) => false,
    };
    let names: Vec<String> = handed
        .iter()
        .filter(hands)
        .map(|h| html::name(&h.pane.label))
        .collect();
    html::list(&names)
}

fn how(pair: &Pair, animation: u16, line: &Line) -> String {
    match line.what {
        What::Own(channel) => format!("own channel <code>{channel}</code>"),
        what => format!(
            "{}, follows {}",
            what.words(),
            followed(pair, animation, line)
        ),
    }
}

fn largest(pair: &Pair, line: &Line, change: &Change) -> String {
    let words = change.words(line.what.unit(), pair.sheet);
    format!(
        "{} <span class=\"number\">at frame {}</span>",
        arrow(words),
        change.frame
    )
}

fn rows(pair: &Pair, animation: u16, lines: &[&Line]) -> String {
    let mut out = String::from("<tbody>\n");
    for (n, line) in lines.iter().enumerate() {
        out += "<tr>";
        if n == 0 {
            let span = lines.len();
            let owner = owner(&line.owner);
            let _ = write!(
                out,
                "<th scope=\"rowgroup\" rowspan=\"{span}\">{owner}</th>"
            );
        }
        let (runs, largest) = match &line.largest {
            Some(change) => (line.frames.words(), largest(pair, line, change)),
            None => ("none".to_string(), "none at a whole frame".to_string()),
        };
        let how = how(pair, animation, line);
        let _ = writeln!(out, "<td>{how}</td><td>{runs}</td><td>{largest}</td></tr>");
    }
    out + "</tbody>\n"
}

fn table(pair: &Pair, compared: &Compared) -> String {
    let animation = compared.menus[0].animation;
    let bodies = compared
        .lines
        .chunk_by(|a, b| a.owner == b.owner)
        .map(|lines| rows(pair, animation.number, &lines.iter().collect::<Vec<_>>()));
    let table = format!(
        "<table class=\"reached\"><caption>Touched in animation {0}; frames are whole ones, 0 to {1}</caption>\n\
         <thead><tr><th scope=\"col\">Pane or material</th><th scope=\"col\">How it is touched</th>\
         <th scope=\"col\">Frames that differ</th><th scope=\"col\">Largest change</th></tr></thead>\n{2}</table>\n",
        animation.number,
        animation.frames,
        bodies.collect::<String>()
    );
    html::scrolled(
        &format!("What is touched in animation {}", animation.number),
        &table,
    )
}

/// Animations whose edited keys decide nothing.
fn idle(pair: &Pair, edits: &[Edit]) -> String {
    let mut numbers: Vec<u16> = edits.iter().map(|edit| edit.track.animation).collect();
    numbers.dedup();
    numbers.retain(|number| !pair.touched(*number).any());
    let words = |number: &u16| {
        format!(
            "<p>The keys that were edited in animation {number} decide no channel of the book: it is proved untouched \
             throughout.</p>\n"
        )
    };
    numbers.iter().map(words).collect()
}

pub fn section(pair: &Pair, edits: &[Edit], compared: &[Compared]) -> String {
    let mut out = String::from(
        "<section aria-labelledby=\"reached\">\n<h2 id=\"reached\">What the edits reach</h2>\n",
    );
    if compared.is_empty() {
        out += "<p>Nothing is touched.</p>\n";
    }
    for animation in compared {
        let number = animation.menus[0].animation.number;
        let _ = writeln!(out, "<h3 id=\"reached-{number}\">Animation {number}</h3>");
        out += &table(pair, animation);
    }
    out + &idle(pair, edits) + "</section>\n"
}
