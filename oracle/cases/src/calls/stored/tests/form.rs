//! The answers beside the text of the lists: its lines are read here again, plainly.

use super::lines::BYTE_ORDER_MARK;
use super::*;
use crate::format::text_of;

/// The words of each line that is a call, and the line's number.
fn calls(text: &str) -> Vec<(usize, String)> {
    let text = text.strip_prefix(BYTE_ORDER_MARK).unwrap_or(text);
    let numbered = text.lines().enumerate().map(|(i, line)| {
        let call = line.split('#').next().unwrap_or_default();
        let words: Vec<&str> = call.split_whitespace().collect();
        (i + 1, words.join(" "))
    });
    numbered.filter(|(_, words)| !words.is_empty()).collect()
}

fn text(list: List) -> String {
    String::from_utf8(list.calls.into_bytes()).expect("text")
}

#[test]
fn answers_repeat_number_and_words_of_each_call() {
    for list in lists(1) {
        let repeated: Vec<_> = answered(&list)
            .into_iter()
            .map(|one| (one.number, one.call))
            .collect();
        assert_eq!(repeated, calls(&text(list)));
    }
}

#[test]
fn lines_are_written_in_every_form() {
    let texts: Vec<String> = lists(1).map(text).collect();
    let marked = texts
        .iter()
        .filter(|text| text.starts_with(BYTE_ORDER_MARK));
    assert_eq!(marked.count(), 1);
    let lines: Vec<&str> = texts.iter().flat_map(|text| text.lines()).collect();
    let count = |is: fn(&str) -> bool| lines.iter().filter(|line| is(line)).count();
    let counts = [
        count(|line| !line.contains(['#', '\t']) && !line.contains("  ")),
        count(|line| line.trim().is_empty()),
        count(|line| line.trim().starts_with('#')),
        count(|line| line.trim().split_once("  # ").is_some()),
        count(|line| line.trim().contains('\t')),
        count(|line| line.trim().contains("   ")),
    ];
    println!("{counts:?}");
    assert!(counts.iter().all(|&count| count > 10));
}

/// How many words are a name, and how many a number. A name must be one of `names`.
fn named(word: &str, names: &[String], counts: &mut [usize; 2]) {
    let by_number = word.parse::<u16>().is_ok();
    assert!(by_number || names.iter().any(|name| name == word), "{word}");
    counts[usize::from(by_number)] += 1;
}

#[test]
fn rows_and_channels_stand_by_name_and_by_number() {
    let of_panes = crate::channel_names::of_panes();
    let of_materials = crate::channel_names::of_materials();
    let [mut panes, mut materials] = [[0; 2]; 2];
    let [mut pane_channels, mut material_channels] = [[0; 2]; 2];
    for list in lists(1) {
        let book = Book::read(&list.book).expect("a book");
        let label = |row: &crate::format::book::Pane| text_of(&row.label).to_string();
        let labels: Vec<String> = book.panes.iter().map(label).collect();
        let name = |row: &crate::format::book::Material| text_of(&row.name).to_string();
        let names: Vec<String> = book.materials.iter().map(name).collect();
        for one in answered(&list) {
            match one.words()[..] {
                ["read", "pane", pane, channel] => {
                    named(pane, &labels, &mut panes);
                    named(channel, &of_panes, &mut pane_channels);
                }
                ["read", "material", material, channel] => {
                    named(material, &names, &mut materials);
                    named(channel, &of_materials, &mut material_channels);
                }
                ["resolve", "pane", pane] => named(pane, &labels, &mut panes),
                ["resolve", "srt", material, _] | ["name", material, _] => {
                    named(material, &names, &mut materials);
                }
                _ => {}
            }
        }
    }
    let counts = [panes, materials, pane_channels, material_channels];
    println!("{counts:?}");
    assert!(counts.as_flattened().iter().all(|&count| count > 20));
}

/// The bits of a number in a call.
fn bits(word: &str) -> u32 {
    match word.strip_prefix("0x") {
        Some(digits) => u32::from_str_radix(digits, 16).expect("bits"),
        None => word.parse::<f32>().expect("a decimal").to_bits(),
    }
}

/// A key that is told ends with what became of the frame and value that were asked for.
#[test]
fn keys_are_told_as_clamped_and_rounded() {
    let mut met = [[0; 2]; 2];
    for one in all_answered() {
        let told: Vec<&str> = one.answer.split(' ').collect();
        let [
            _,
            "frame",
            _,
            frame,
            "value",
            _,
            value,
            "slope",
            _,
            _,
            end @ ..,
        ] = &told[..]
        else {
            continue;
        };
        let (asked_frame, asked_value) = match one.words()[..] {
            ["key", _, _, frame, value] | ["drag", frame, value] => (frame, value),
            _ => {
                assert!(end.is_empty(), "{}", one.call);
                continue;
            }
        };
        let clamped = bits(asked_frame) != bits(frame);
        let rounded = bits(asked_value) != bits(value);
        let marks = [(clamped, "clamped"), (rounded, "rounded")];
        let marks: Vec<&str> = marks.iter().filter(|(is, _)| *is).map(|m| m.1).collect();
        assert_eq!(end, marks, "{}", one.call);
        met[usize::from(clamped)][usize::from(rounded)] += 1;
    }
    println!("{met:?}");
    assert!(met.as_flattened().iter().all(|&count| count > 20));
}
