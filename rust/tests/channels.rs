//! Channels have the same names and numbers here, in the C header, on the command line and in docs/FORMAT.md. The command
//! line's are in the list that the program `channel_names` prints, which is made from the Rust's targets.rs.

use std::fs;
use std::path::Path;

use dovebolt::{MaterialChannel, PaneChannel, channel_count, example};

fn file(name: &str) -> String {
    let path = Path::new(env!("CARGO_MANIFEST_DIR")).join("..").join(name);
    fs::read_to_string(&path).unwrap_or_else(|e| panic!("{}: {e}", path.display()))
}

/// Number and name of every channel.
fn panes() -> Vec<(u16, String)> {
    let all = PaneChannel::ALL.into_iter();
    all.map(|c| (c.number(), c.to_string())).collect()
}

fn materials() -> Vec<(u16, String)> {
    let all = MaterialChannel::ALL.into_iter();
    all.map(|c| (c.number(), c.to_string())).collect()
}

/// The lines `pane 11 alpha` of the list.
fn printed(row: &str) -> Vec<(u16, String)> {
    let list = file("crates/channel_names/stdout");
    let rest = list.lines().filter_map(|line| line.strip_prefix(row));
    rest.map(|line| {
        let (number, name) = line.trim().split_once(' ').unwrap();
        (number.parse().unwrap(), name.to_string())
    })
    .collect()
}

/// The lines `PREFIXALPHA = 11,` of an enum of the header, with the name as it is printed.
fn declared(name: &str, prefix: &str) -> Vec<(u16, String)> {
    let header = file("include/menu.h");
    let (_, from) = header.split_once(&format!("enum {name} {{\n")).unwrap();
    let (body, _) = from.split_once("};").unwrap();
    let lines = body.lines().map(|line| line.trim().trim_end_matches(','));
    lines
        .map(|line| {
            let (constant, number) = line.split_once(" = ").unwrap();
            let name = constant.strip_prefix(prefix).unwrap().to_lowercase();
            (number.parse().unwrap(), name)
        })
        .collect()
}

#[test]
fn as_the_command_line_prints_them() {
    assert_eq!(panes(), printed("pane "));
    assert_eq!(materials(), printed("material "));
}

#[test]
fn as_the_header_declares_them() {
    assert_eq!(panes(), declared("menu_pane_channel", "MENU_PANE_"));
    let declared = declared("menu_material_channel", "MENU_MATERIAL_");
    assert_eq!(materials(), declared);
}

/// The rows ``| 11 | `alpha` |`` of the document's tables of channels.
#[test]
fn as_the_document_lists_them() {
    let document = file("docs/FORMAT.md");
    let rows = document.lines().filter_map(|line| {
        let (number, rest) = line.strip_prefix("| ")?.split_once(" | `")?;
        let (name, _) = rest.split_once("` | FL")?;
        Some((number.parse().ok()?, name.to_string()))
    });
    let listed: Vec<(u16, String)> = rows.collect();
    assert_eq!(listed, [panes(), materials()].concat());
}

/// A variant is the words of its name, each with a capital.
#[test]
fn as_they_are_spelled() {
    let spelled = |variant: String, name: &str| {
        let words = name.split('_');
        let words = words.map(|word| word[..1].to_uppercase() + &word[1..]);
        assert_eq!(variant, words.collect::<String>());
    };
    for c in PaneChannel::ALL {
        spelled(format!("{c:?}"), c.name());
    }
    for c in MaterialChannel::ALL {
        spelled(format!("{c:?}"), c.name());
    }
}

/// Their places are those of a whole reading, each once.
#[test]
fn places() {
    let book = example::book();
    let panes = (0..2).flat_map(|pane| PaneChannel::ALL.map(|c| c.place(pane)));
    let materials = MaterialChannel::ALL.map(|c| c.place(&book, 0));
    let places: Vec<usize> = panes.chain(materials).collect();
    assert_eq!(places, Vec::from_iter(0..channel_count(&book)));
}

#[test]
fn numbers() {
    for number in 0..=u16::MAX {
        let (pane, material) = (
            PaneChannel::from_number(number),
            MaterialChannel::from_number(number),
        );
        assert_eq!(
            pane.map(PaneChannel::number),
            (number < 28).then_some(number)
        );
        assert_eq!(
            material.map(MaterialChannel::number),
            (number < 30).then_some(number)
        );
    }
}
