//! Which calls, answers and sheets are in the lists.

use super::*;
use crate::curves::{CONSTANT, HERMITE, STEP};

const VERBS: [&str; 22] = [
    "play ",
    "pose ",
    "tick ",
    "key ",
    "slope ",
    "undo",
    "redo",
    "open ",
    "drag ",
    "drop",
    "abandon",
    "read pane ",
    "read material ",
    "read all",
    "resolve pane ",
    "resolve srt ",
    "name ",
    "next ",
    "cascade",
    "player",
    "keys",
    "save",
];

#[test]
fn every_kind_of_call_and_answer_is_in_the_lists() {
    let all = all_answered();
    assert!((3000..9000).contains(&all.len()));
    each_occurs(&VERBS, 20, &all, |one, verb| one.call.starts_with(verb));
    let told = [
        "ok",
        "ok frame ",
        "unchanged frame ",
        "declined 6",
        "declined 7",
        "declined 8",
        "declined 9",
        "declined 10",
        "declined 11",
        "declined 15",
        "idle",
        "running",
        "ended",
        "ended next",
        "none",
        "row ",
        "level ",
        "shown",
        "hidden",
        "name ",
        "next ",
        "translate ",
        "selection ",
        "saved ",
    ];
    each_occurs(&told, 3, &all, |one, word| one.answer.starts_with(word));
}

#[test]
fn every_kind_of_row_is_in_the_lists() {
    let all = all_answered();
    for (call, row) in [
        ("read all", "pane "),
        ("read all", "material "),
        ("cascade", "pane "),
        ("keys", "track "),
    ] {
        let of = all.iter().filter(|one| one.call == call);
        let rows = of.flat_map(|one| &one.rows);
        assert!(rows.filter(|line| line.starts_with(row)).count() > 20);
    }
    let rows: Vec<String> = all.into_iter().flat_map(|one| one.rows).collect();
    // NaNs are too rare for these lists; the curves of `vectors` have them.
    let channels = [
        " translate_",
        " rotate_",
        " scale_",
        " size_",
        " visible ",
        "_top_",
        "_bottom_",
        " layer_",
        " texture_",
        " indirect_",
        " alpha_reference ",
        " black_",
        " white_",
        "~",
    ];
    each_occurs(&channels, 1, &rows, |line, word| line.contains(word));
}

#[test]
fn sheets_have_curves_of_each_kind_and_textures_out_of_range() {
    let sheets: Vec<Sheet> = lists(1).map(|list| list.walk.held.sheet).collect();
    for curve in [CONSTANT, STEP, HERMITE] {
        let with = |sheet: &&Sheet| sheet.targets.iter().any(|t| t.curve == curve);
        assert!(sheets.iter().filter(with).count() > 5);
    }
    let outside = |sheet: &Sheet| {
        let slots = sheet
            .targets
            .iter()
            .filter(|t| t.code == *b"FLTP" && t.layer < 3);
        let mut values = slots.flat_map(|t| &sheet.values[t.keys()]);
        values.any(|&value| value >= sheet.textures.len() as f32)
    };
    assert!(sheets.iter().any(outside));
    let rows = || sheets.iter().flat_map(|sheet| &sheet.animations);
    assert!(rows().any(|row| row.looping == 1) && rows().any(|row| row.looping == 0));
}

#[test]
fn sheets_are_saved_as_they_were_and_otherwise() {
    let all = all_answered();
    let saves = all.iter().filter(|one| one.call == "save");
    let (same, other): (Vec<_>, Vec<_>) =
        saves.partition(|one| one.answer.contains(" bytes, 0 differ "));
    println!("{} as they were, {} otherwise", same.len(), other.len());
    assert!(same.len() > 20 && other.len() > 20);
}

/// A call that may move the player is followed by a line that tells it.
#[test]
fn the_player_is_told_after_each_move() {
    let moves = &VERBS[..11];
    for list in lists(1) {
        for pair in answered(&list).windows(2) {
            let [call, after] = [&pair[0].call, &pair[1].call];
            let moved = moves.iter().any(|verb| call.starts_with(verb));
            assert_eq!(after == "player", moved, "{call}");
        }
    }
    let all = all_answered();
    let drags = [" drag none", ", moved", ", not moved"];
    each_occurs(&drags, 20, &all, |one, word| one.answer.ends_with(word));
}

#[test]
fn each_verb_of_an_edit_and_a_drag_is_accepted_and_declined() {
    let all = all_answered();
    let met = [
        ("open ", "ok"),
        ("drag ", "ok frame "),
        ("drag ", "unchanged frame "),
        ("drag ", "declined 9"),
        ("drop", "ok frame "),
        ("drop", "unchanged frame "),
        ("abandon", "ok"),
        ("key ", "ok frame "),
        ("key ", "unchanged frame "),
        ("key ", "declined 9"),
        ("slope ", "ok frame "),
        ("slope ", "unchanged frame "),
        ("slope ", "declined 10"),
        ("undo", "ok"),
        ("redo", "ok"),
    ];
    for (verb, answer) in met {
        let both = |one: &&Answered| one.call.starts_with(verb) && one.answer.starts_with(answer);
        let count = all.iter().filter(both).count();
        println!("{verb}{answer}: {count}");
        assert!(count > 0, "{verb}{answer}");
    }
}

/// Where something is unchanged, the lines that tell the player before and after it
/// differ in the drag alone: some with something to redo, some of a drop of a key that
/// was dragged.
#[test]
fn unchanged_keys_keep_what_can_be_made_again() {
    let (mut redo, mut back) = (0, 0);
    for list in lists(1) {
        let mut before = String::new();
        for pair in answered(&list).windows(2) {
            let [told, after] = [&pair[0].answer, &pair[1].answer];
            if told.starts_with("unchanged ") {
                let [(was, dragged), (is, drag)] =
                    [&before, after].map(|line| line.split_once(" drag ").expect("a player"));
                assert_eq!(is, was);
                redo += usize::from(!is.contains(" redo 0 "));
                back += usize::from(dragged.ends_with(", moved") && drag == "none");
            }
            if told.starts_with("selection ") {
                before.clone_from(told);
            }
        }
    }
    println!("{redo} with something to redo, {back} dropped where they were");
    assert!(redo > 5 && back > 3);
}

#[test]
fn the_long_list_fills_the_journal() {
    let list = long_list(1);
    let player = &list.walk.held.player;
    assert!(player.accepted > 128 && player.undone > 128 && player.redone == 128);
}
