//! The words of a refusal, call by call.

use super::*;
use crate::calls::table;
use std::collections::BTreeSet;

/// A verb, and a refusal with its words, where an `N` stands for a number.
const MET: [(&str, &str); 43] = [
    ("play", "6: no such animation: the sheet has N"),
    ("next", "6: no such animation: the sheet has N"),
    ("key", "6: nothing is active"),
    ("slope", "6: nothing is active"),
    ("open", "6: nothing is active"),
    ("key", "7: no such track: the sheet has N"),
    ("slope", "7: no such track: the sheet has N"),
    ("open", "7: no such track: the sheet has N"),
    ("key", "7: track N is of animation N, and N is active"),
    ("slope", "7: track N is of animation N, and N is active"),
    ("open", "7: track N is of animation N, and N is active"),
    ("key", "7: no such key: track N has N"),
    ("slope", "7: no such key: track N has N"),
    ("open", "7: no such key: track N has N"),
    ("read pane", "7: no such pane: the book has N"),
    ("read pane", "7: no such channel: a pane has N"),
    ("read material", "7: no such material: the book has N"),
    ("read material", "7: no such channel: a material has N"),
    ("resolve pane", "7: no such pane: the book has N"),
    ("resolve srt", "7: no such material: the book has N"),
    ("resolve srt", "7: no such layer: a material has N"),
    ("name", "7: no such material: the book has N"),
    ("name", "7: no such layer: a material has N"),
    ("pose", "8: the frame is not finite"),
    ("key", "8: the frame is not finite"),
    ("key", "8: the value is not finite"),
    ("drag", "8: the frame is not finite"),
    ("drag", "8: the value is not finite"),
    ("slope", "8: the slope is not finite"),
    (
        "tick",
        "8: the seconds, the frames per second or the frame that they lead to is not finite",
    ),
    ("key", "9: the clamped frame is above the next key's"),
    ("drag", "9: the clamped frame is above the next key's"),
    ("slope", "10: the curve is not Hermite"),
    ("undo", "11: nothing to undo"),
    ("redo", "11: nothing to redo"),
    ("key", "15: a drag is open"),
    ("slope", "15: a drag is open"),
    ("open", "15: a drag is open"),
    ("undo", "15: a drag is open"),
    ("redo", "15: a drag is open"),
    ("drag", "15: no drag is open"),
    ("drop", "15: no drag is open"),
    ("abandon", "15: no drag is open"),
];

/// The verb of a declined call, and the refusal as above.
fn declined(one: &Answered) -> Option<(String, String)> {
    let (number, words) = one.answer.strip_prefix("declined ")?.split_once(": ")?;
    let called = one.words();
    let length = if matches!(called[0], "read" | "resolve") {
        2
    } else {
        1
    };
    let plain = words.split(' ').map(|word| {
        let digits = word.trim_end_matches(',');
        match digits.parse::<u32>() {
            Ok(_) => word.replace(digits, "N"),
            Err(_) => word.to_string(),
        }
    });
    let plain: Vec<String> = plain.collect();
    Some((
        called[..length].join(" "),
        format!("{number}: {}", plain.join(" ")),
    ))
}

#[test]
fn each_call_is_declined_in_its_own_words_and_no_others() {
    let all = all_answered();
    let met: BTreeSet<_> = all.iter().filter_map(declined).collect();
    let expected = MET.map(|(verb, words)| (verb.to_string(), words.to_string()));
    assert_eq!(met, BTreeSet::from(expected));
}

/// How many there are of what a call names, and the number by which it does.
fn count_and_number(one: &Answered, sheet: &Sheet, book: &Book) -> Option<(usize, usize)> {
    let (what, _) = one.answer.split_once("no such ")?.1.split_once(':')?;
    let words = one.words();
    let last = words.len() - 1;
    let number = |place: usize| words[place].parse().expect("a number");
    Some(match (what, words[0]) {
        ("animation", _) => (sheet.animations.len(), number(1)),
        ("track", _) => (sheet.targets.len(), number(1)),
        ("key", _) => {
            let target = &sheet.targets[number(1)];
            (usize::from(target.key_count), number(2))
        }
        ("pane", _) => (book.panes.len(), number(2)),
        ("material", "name") => (book.materials.len(), number(1)),
        ("material", _) => (book.materials.len(), number(2)),
        ("channel", _) if words[1] == "pane" => (28, number(last)),
        ("channel", _) => (30, number(last)),
        _ => (3, number(last)),
    })
}

#[test]
fn what_is_said_to_be_missing_is() {
    let mut count = 0;
    for list in lists(1) {
        let held = &list.walk.held;
        let book = Book::read(&list.book).expect("a book");
        for one in answered(&list) {
            let Some((there, asked)) = count_and_number(&one, &held.sheet, &book) else {
                continue;
            };
            assert!(
                one.answer.ends_with(&format!(" has {there}")),
                "{}",
                one.call
            );
            assert!(asked >= there, "{}", one.call);
            count += 1;
        }
    }
    println!("{count}");
    assert!(count > 100);
}

/// The line after it tells the player, and so what is active.
#[test]
fn a_track_is_said_to_be_of_its_own_animation() {
    let mut count = 0;
    for list in lists(1) {
        let sheet = &list.walk.held.sheet;
        for pair in answered(&list).windows(2) {
            let Some(told) = pair[0].answer.strip_prefix("declined 7: track ") else {
                continue;
            };
            let track: u16 = pair[0].words()[1].parse().expect("a track");
            let own = table::animation(sheet, track);
            let player: Vec<&str> = pair[1].answer.split(' ').collect();
            let active = player[1];
            let words = format!("{track} is of animation {own}, and {active} is active");
            assert_eq!(told, words);
            assert_ne!(active, own.to_string());
            count += 1;
        }
    }
    assert!(count > 10);
}

/// No list in text can meet these: an output of another length.
#[test]
fn refusals_of_an_answer_with_rows_stand_in_a_row() {
    let mut list = long_list(1);
    let drag = Drag::default();
    for (call, words) in [
        (Call::ReadAll { short: 1 }, "read all"),
        (Call::Cascade { short: 1 }, "cascade"),
    ] {
        let Step::Called(_, answer) = list.walk.call(call) else {
            panic!("{call:?} is a call");
        };
        let line = Line { number: 7, words };
        let told = text::answer(&line, &call, &answer, &list.walk.held, &drag);
        let refusal = "declined 13: an output is not exactly as long as it must be";
        assert_eq!(told, format!("7 {words}:\n  {refusal}\n").into_bytes());
    }
}
