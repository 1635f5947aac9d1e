//! Which channel an address is, against what is known apart from it: the tables of docs/FORMAT.md, the list that the program
//! `channel_names` prints, and what the proved code reads.

use std::fs;
use std::path::Path;

use dovebolt::{
    Address, BookBuilder, BookView, Channel, ContentKind, MaterialChannel, PaneChannel, Player,
    SheetBuilder, SheetView,
};

fn file(name: &str) -> String {
    let path = Path::new(env!("CARGO_MANIFEST_DIR")).join("..").join(name);
    fs::read_to_string(&path).unwrap_or_else(|e| panic!("{}: {e}", path.display()))
}

fn code(text: &str) -> [u8; 4] {
    text.as_bytes().try_into().unwrap()
}

/// A row of the document's tables: the channel's name, its code, the layer where it has one of its own, and its raw numbers;
/// `None` for any.
struct Listed {
    name: String,
    code: [u8; 4],
    layer: Option<u8>,
    raws: Option<Vec<u8>>,
}

/// "4 Constant0Red; 8, 12, 16, 20, 24 Color0Red to Color4Red", "3 RotateX" or "any (0 Visibility)".
fn raws(column: &str) -> Option<Vec<u8>> {
    if column.starts_with("any") {
        return None;
    }
    let words = column.split([' ', ',', ';']);
    Some(words.filter_map(|word| word.parse().ok()).collect())
}

/// The rows ``| 2 | `layer_0_rotate` | FLTS, 0 | 2 Rotate | number |`` of "Channels".
fn listed() -> Vec<Listed> {
    let document = file("docs/FORMAT.md");
    let (_, channels) = document.split_once("\n## Channels\n").unwrap();
    let (channels, _) = channels.split_once("\n## ").unwrap();
    let rows = channels.lines().filter_map(|line| {
        let columns: Vec<&str> = line.split(" | ").collect();
        let [number, name, address, raw, _] = columns[..] else {
            return None;
        };
        number.strip_prefix("| ")?.parse::<u16>().ok()?;
        let (family, layer) = address.split_once(", ").unwrap_or((address, "any"));
        Some(Listed {
            name: name.trim_matches('`').into(),
            code: code(family),
            layer: layer.parse().ok(),
            raws: raws(raw),
        })
    });
    let rows: Vec<Listed> = rows.collect();
    assert_eq!(rows.len(), 58);
    rows
}

fn is_pane_family(code: &[u8; 4]) -> bool {
    [b"FLPA", b"FLVI", b"FLVC"].contains(&code)
}

/// The channel that the tables and the rules below them give an address: the row that lists it, or for a raw number that no
/// row of the family lists, the row with raw number 0. FLTS and FLTP have rows for the layers 0 to 2 alone.
fn by_tables(rows: &[Listed], address: Address, kind: ContentKind) -> Option<&str> {
    let Address { code, raw, layer } = address;
    let reaches = match kind {
        ContentKind::Pane | ContentKind::PaneExt => is_pane_family(&code),
        ContentKind::Material => !is_pane_family(&code),
        _ => false,
    };
    let family = || {
        let own = rows.iter().filter(move |row| row.code == code);
        own.filter(move |row| row.layer.is_none_or(|own| own == layer))
    };
    let of_raw = |raw| family().find(move |r| r.raws.as_ref().is_none_or(|all| all.contains(&raw)));
    let row = of_raw(raw).or_else(|| of_raw(0))?;
    reaches.then_some(&row.name)
}

const KINDS: [ContentKind; 5] = [
    ContentKind::Pane,
    ContentKind::Material,
    ContentKind::User,
    ContentKind::PaneExt,
    ContentKind::StateMachine,
];

const CODES: [&[u8; 4]; 11] = [
    b"FLPA", b"FLVI", b"FLVC", b"FLTS", b"FLTP", b"FLIM", b"FLAC", b"FLMC", b"FLEU", b"flpa",
    b"FLP\0",
];

/// Every code, raw number and a layer of each case.
fn addresses() -> impl Iterator<Item = Address> {
    let raws = |code| (0..=255).map(move |raw| (code, raw));
    let both = CODES.into_iter().flat_map(raws);
    both.flat_map(|(code, raw)| [0, 1, 2, 3, 255].map(|layer| Address::new(code, raw, layer)))
}

#[test]
fn addresses_as_the_document_lists_them() {
    let rows = listed();
    for address in addresses() {
        for kind in KINDS {
            let channel = address.channel(kind).map(Channel::name);
            assert_eq!(
                channel,
                by_tables(&rows, address, kind),
                "{address}, {kind}"
            );
        }
    }
}

/// A channel's own address has its first raw number and, where the family ignores it, layer 0.
#[test]
fn addresses_of_channels_as_the_document_lists_them() {
    let panes = PaneChannel::ALL.map(|c| (c.name(), Address::from(c)));
    let materials = MaterialChannel::ALL.map(|c| (c.name(), Address::from(c)));
    let own = panes.into_iter().chain(materials);
    for ((name, address), row) in own.zip(listed()) {
        let raw = row.raws.map_or(0, |all| all[0]);
        let expected = Address::new(&row.code, raw, row.layer.unwrap_or(0));
        assert_eq!((name, address), (&row.name[..], expected));
    }
}

/// The lines `FLVC 17 left_top_red`, one for each raw number.
#[test]
fn corner_colours_as_they_are_printed() {
    let list = file("crates/channel_names/stdout");
    let lines = list.lines().filter_map(|line| line.strip_prefix("FLVC "));
    let mut count = 0;
    for line in lines {
        let (raw, name) = line.split_once(' ').unwrap();
        let address = Address::new(b"FLVC", raw.parse().unwrap(), 0);
        for kind in [ContentKind::Pane, ContentKind::PaneExt] {
            assert_eq!(
                address.channel(kind).map(Channel::name),
                Some(name),
                "{line}"
            );
        }
        count += 1;
    }
    assert_eq!(count, 256);
}

/// What the proved code overrides by a single track is the channel that the track reaches, and no other.
#[test]
fn tracks_reach_what_the_proved_code_reads() {
    let mut book = BookBuilder::new();
    book.pane("Other");
    book.pane("Both");
    book.material("Lone");
    book.material("Both");
    let book = book.build().unwrap();
    let view = BookView::of(&book).unwrap();
    let cases = addresses().flat_map(|address| KINDS.map(|kind| (address, kind)));
    for (number, (address, kind)) in cases.enumerate() {
        let name = ["Both", "Lone", "Other"][number % 3];
        let mut sheet = SheetBuilder::new();
        sheet.texture("day").texture("night");
        sheet
            .animation(4)
            .content(kind, name)
            .constant(address, &[1.0]);
        let sheet = sheet.build().unwrap();
        let (mut player, keys) = Player::load(&sheet).unwrap();
        player.pose(&sheet, Some(0), 0.0).unwrap();
        let marks = player.read_all(&sheet, &book, &keys).unwrap().marks;
        let read: Vec<usize> = (0..marks.len())
            .filter(|place| marks[*place] == 1)
            .collect();

        let track = SheetView::of(&sheet).unwrap().track(0).unwrap();
        let reached = view.reached(&track);
        let reached = reached.map(|(number, channel)| view.place(number, channel));
        assert_eq!(Vec::from_iter(reached), read, "{address}, {kind} {name}");
    }
}
