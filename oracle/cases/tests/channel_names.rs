//! Each raw number of FLVC on the published text: its `evaluate` overrides the
//! channel of the name that targets.rs has for the number, and no other. The
//! proved code's cases, and the names that are printed, are those of targets.rs's
//! own text.

use cases::bits::bits_of;
use cases::channel_names;
use cases::reached;
use cases::readings::{Case, whole};

#[test]
fn each_raw_number_reaches_the_channel_of_its_name() {
    let channels = channel_names::of_panes();
    for raw in 0..=255 {
        for (kind, curve) in [(0, 0), (0, 1), (0, 2), (3, 0), (3, 1), (3, 2)] {
            let case = Case {
                sheet: reached::sheet(raw, kind, curve),
                book: reached::book(),
                active: Some((0, 0.0)),
            };
            let read = whole::reading(&case.book, &whole::state(&case));
            let place = channels
                .iter()
                .position(|c| *c == channel_names::corner_or_alpha(raw));
            let marked: Vec<usize> = (0..channels.len())
                .filter(|&c| read.marks[c] == 1)
                .collect();
            assert_eq!(marked, [place.expect("a channel")], "raw {raw}");
            assert_eq!(read.numbers[marked[0]], bits_of(51.0 / 255.0));
        }
    }
}

/// The words between a line and the next `end`: variants, or elements of a table.
fn listed<'a>(text: &'a str, line: &str, end: char) -> Vec<&'a str> {
    let (_, from) = text.split_once(line).expect("the line");
    let (body, _) = from.split_once(end).expect("its end");
    let words = body.lines().map(|word| word.trim().trim_end_matches(','));
    words
        .filter(|word| !word.is_empty() && !word.starts_with('#'))
        .collect()
}

const TARGETS: &str =
    include_str!("../../../../shared/docs/src--nnbfl--src--bflan--targets.rs.txt");
const OURS: &str = include_str!("../../../crates/channel/src/corner_colours.rt");

/// The cases of the proved code are targets.rs's, in its order and spelling, and
/// each stands at its raw number.
#[test]
fn the_cases_are_those_of_targets_rs() {
    let theirs = listed(TARGETS, "pub enum VertexColorTarget {\n", '}');
    assert_eq!((theirs.len(), theirs[16]), (17, "PaneAlpha"));
    let ours: Vec<String> = listed(OURS, "pub enum CornerColour {\n", '}')
        .iter()
        .map(|case| case.to_string())
        .collect();
    // Each case stands beside its channel's number, which goes up by one from the first.
    let numbered: Vec<String> = (12..)
        .zip(&theirs[..16])
        .map(|(channel, name)| format!("{name} = {channel}"))
        .collect();
    assert_eq!(ours, numbered);
    let table = listed(
        OURS,
        "const CORNER_COLOURS: [CornerColour; PANE_ALPHA] = [\n",
        ']',
    );
    let table: Vec<&str> = table
        .iter()
        .filter_map(|c| c.strip_prefix("CornerColour::"))
        .collect();
    assert_eq!(table, theirs[..16]);
}

/// A name that is printed is made of the variant's words.
#[test]
fn the_names_are_those_of_targets_rs() {
    let variants = listed(TARGETS, "pub enum VertexColorTarget {\n", '}');
    for raw in 0..=255 {
        let variant = variants.get(usize::from(raw)).unwrap_or(&variants[0]);
        let name = channel_names::corner_or_alpha(raw).replace('_', "");
        let word = variant.to_lowercase();
        assert_eq!(
            name,
            word.strip_prefix("pane").unwrap_or(&word),
            "raw {raw}"
        );
    }
}
