//! The page's head: what was compared, what came of it, and what is proved.

use crate::edits::Edit;
use crate::html;
use crate::pair::Pair;
use crate::untouched::Sides;

/// The page in two or three sentences.
fn summary(edits: &[Edit], sides: &Sides) -> Vec<String> {
    let keys: usize = edits.iter().map(|edit| edit.keys.len()).sum();
    let edited = match keys {
        0 => "No key differs.".to_string(),
        n => format!(
            "{} of {} {} edited.",
            html::count(n, "key", "keys"),
            html::count(edits.len(), "track", "tracks"),
            if n == 1 { "was" } else { "were" }
        ),
    };
    let split = |touched: usize, untouched: usize, one: &str, many: &str| {
        format!(
            "{} {} touched, {untouched} {} proved untouched.",
            html::count(touched, one, many),
            html::are(touched),
            html::are(untouched)
        )
    };
    let (panes, materials) = (&sides.touched_panes, &sides.touched_materials);
    let mut out = vec![
        edited,
        split(panes.len(), sides.panes.len(), "pane", "panes"),
    ];
    if !materials.is_empty() || !sides.materials.is_empty() {
        let (touched, untouched) = (materials.len(), sides.materials.len());
        out.push(split(touched, untouched, "material", "materials"));
    }
    out
}

fn compared(pair: &Pair) -> String {
    let animations = pair.sheet.animations().len();
    let files = [
        ("Before", &pair.files.old),
        ("After", &pair.files.new),
        ("Book", &pair.files.book),
    ];
    let rows = files.map(|(what, file)| {
        format!(
            "<div><dt>{what}</dt><dd><bdi>{}</bdi></dd></div>\n",
            html::escaped(file)
        )
    });
    format!(
        "<dl class=\"files\">\n{}<div><dt>Compared</dt><dd>{} in {}, with {} and {} of the book</dd></div>\n</dl>\n",
        rows.concat(),
        html::count(pair.sheet.key_count(), "key", "keys"),
        html::count(animations, "animation", "animations"),
        html::count(pair.book.panes().len(), "pane", "panes"),
        html::count(pair.book.materials().len(), "material", "materials")
    )
}

const MEANING: &str = "<section class=\"meaning\" aria-labelledby=\"meaning\">\n\
    <h2 id=\"meaning\">What the words mean</h2>\n\
    <dl>\n\
    <dt>Proved untouched</dt>\n\
    <dd>A proof, checked by machine, says that it reads the same with both sets of keys: bit for bit, at every frame, whole or \
    not. It is told by the library's call <code>menu_reach</code>, not by looking at frames.</dd>\n\
    <dt>Touched</dt>\n\
    <dd>It can differ. At which whole frames it does is read with the library, once with each set of keys.</dd>\n\
    <dt>Not covered</dt>\n\
    <dd>Where a pane is drawn: one that is untouched, below a pane that moves, is carried along. That a curve reads the same \
    outside the shaded span of frames is proved; the shading, the drawings and this page are made by a program that is not.</dd>\n\
    </dl>\n</section>\n";

pub fn header(pair: &Pair, edits: &[Edit], sides: &Sides) -> String {
    let sentences = summary(edits, sides);
    format!(
        "<header>\n<h1>Review of edited keys</h1>\n<p class=\"summary\"><span>{}</span></p>\n{}</header>\n",
        sentences.join(" </span><span>"),
        compared(pair)
    )
}

pub fn meaning() -> &'static str {
    MEANING
}
