//! The page's part on what was edited: each track that has a key which differs.

use dovebolt::{Channel, ContentKind, Curve, Refusal, Track};

use crate::edits::{Edit, Fate, Span};
use crate::pair::Pair;
use crate::{curves, html, keys_table};

/// What a track moves: a pane's or a material's channel, or its address where it has none.
fn target(track: &Track) -> String {
    let channel = match track.channel() {
        Some(channel) => format!("<code>{channel}</code>"),
        None => format!("<code>{}</code>", html::escaped(&track.address.to_string())),
    };
    format!("{} {channel}", html::name(&track.name))
}

/// The track's kind and numbers.
fn facts(edit: &Edit) -> String {
    let track = &edit.track;
    let keys = html::count(usize::from(track.key_count), "key", "keys");
    let curve = match track.curve {
        Curve::Constant => {
            "Constant curve: key n is that of frame n, the last one that of all later frames"
        }
        Curve::Step => "Step curve",
        Curve::Hermite => "Hermite curve",
    };
    format!(
        "<p class=\"facts\">Animation {}, {}, track {}, {keys}, {} edited. {curve}.</p>\n",
        track.animation,
        track.kind,
        track.number,
        edit.keys.len()
    )
}

/// Why a track that addresses nothing does not.
fn nothing(track: &Track) -> String {
    let kind = match track.channel() {
        Some(Channel::Pane(_)) => "pane",
        Some(Channel::Material(_)) => "material",
        None if matches!(track.kind, ContentKind::User | ContentKind::StateMachine) => {
            return format!("A content of the kind {} addresses nothing.", track.kind);
        }
        None => return "No channel has this address.".to_string(),
    };
    format!("The book has no {kind} of this name.")
}

fn part(pair: &Pair, edit: &Edit) -> Result<String, Refusal> {
    let track = &edit.track;
    let mut out = format!(
        "<section class=\"track\" aria-labelledby=\"track-{0}\">\n<h3 id=\"track-{0}\">{1}</h3>\n{2}",
        track.number,
        target(track),
        facts(edit)
    );
    let animation = pair.sheet.animation(track.animation);
    match (&edit.fate, animation) {
        (Fate::Decides(place), Some(animation)) => {
            let spans: Vec<String> = edit.spans(&pair.before).iter().map(Span::words).collect();
            let picture = curves::picture(pair, animation, edit, *place)?;
            out += &format!(
                "<figure>\n{}<figcaption>Dashed line and hollow keys: before. Solid line and filled keys: after. \
                 The edit can reach {}.</figcaption>\n</figure>\n",
                html::scrolled(&format!("Curve of track {}", track.number), &picture),
                html::list(&spans)
            );
        }
        (Fate::Overridden(last), _) => {
            out += &format!(
                "<p class=\"none\"><strong>This edit changes nothing.</strong> Track {last} comes later in the \
                 sheet and decides the channel.</p>\n"
            );
        }
        _ => {
            out += &format!(
                "<p class=\"none\"><strong>This edit changes nothing.</strong> {}</p>\n",
                nothing(track)
            );
        }
    }
    out += &keys_table::table(edit, &pair.before, &pair.after);
    Ok(out + "</section>\n")
}

/// All edited tracks, in the sheet's order.
pub fn section(pair: &Pair, edits: &[Edit]) -> Result<String, Refusal> {
    let mut out = String::from(
        "<section aria-labelledby=\"edited\">\n<h2 id=\"edited\">What was edited</h2>\n",
    );
    if edits.is_empty() {
        out += "<p>No key differs.</p>\n";
    }
    for edit in edits {
        out += &part(pair, edit)?;
    }
    Ok(out + "</section>\n")
}
