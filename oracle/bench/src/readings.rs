//! Readings, ours beside the Rust's `evaluate`.

use crate::menus::{FRAME, Menu};
use crate::timing::{Both, Figure, alone, side_by_side};
use cases::readings::Case;
use cases::readings::rows::Rows;
use compare::probe::readings::Tables;
use dovebolt::PaneChannel;
use published::anim_state::AnimationState;
use std::hint::black_box;

/// Rows read after one check, all at one frame; the check's share of each is a
/// thousandth.
const ROWS: Rows = Rows {
    times: 1000,
    step: 0.0,
};

/// No book has this pane, so that a reading of it is declined with 7 after rows 1
/// to 5 have passed.
const NO_PANE: u16 = 64;

fn evaluate(menu: &Menu) -> AnimationState {
    AnimationState::evaluate(black_box(&menu.info), FRAME, &menu.labels)
}

/// The checks of a reading, and no reading.
pub fn checks_of(menu: &Menu) -> impl FnMut() {
    let player = menu.posed();
    move || {
        let Menu {
            sheet, book, keys, ..
        } = menu;
        let answer = player.read_pane(sheet, book, keys, NO_PANE, PaneChannel::Alpha);
        assert!(black_box(answer).is_err());
    }
}

pub fn checks(menu: &Menu) -> Figure {
    alone(&mut checks_of(menu))
}

/// A row of a plan that is made once, as for a table of frames. The Rust looks its
/// names up at every `evaluate`; a plan does once.
pub fn planned_row(menu: &Menu) -> Both {
    rows(menu, Tables::fill_frames)
}

/// A row with a plan of its own, which looks the names up as the Rust does.
pub fn plan_and_row(menu: &Menu) -> Both {
    rows(menu, Tables::fill_times)
}

fn rows(menu: &Menu, fill: impl Fn(&mut Tables, &Case, &[u8], &[u8], Rows) -> bool) -> Both {
    let Menu {
        case, sheet, book, ..
    } = menu;
    let mut tables = Tables::new(dovebolt::channel_count(book));
    let both = side_by_side(
        &mut || assert!(fill(&mut tables, case, sheet, book, ROWS)),
        &mut || (0..ROWS.times).for_each(|_| drop(black_box(evaluate(menu)))),
    );
    both.each_of(ROWS.times)
}

pub fn whole_reading(menu: &Menu) -> Both {
    let player = menu.posed();
    let count = dovebolt::channel_count(&menu.book);
    let (mut marks, mut numbers) = (vec![0; count], vec![0.0; count]);
    side_by_side(
        &mut || {
            let Menu {
                sheet, book, keys, ..
            } = menu;
            let answer = player.read_all_into(sheet, book, keys, &mut marks, &mut numbers);
            answer.expect("a reading");
        },
        &mut || drop(black_box(evaluate(menu))),
    )
}

/// The Rust has no reading of one channel: it evaluates all.
pub fn single_reading(menu: &Menu) -> Both {
    let player = menu.posed();
    side_by_side(
        &mut || {
            let Menu {
                sheet, book, keys, ..
            } = menu;
            let answer = player.read_pane(sheet, book, keys, 0, PaneChannel::TranslateX);
            black_box(answer).expect("a reading");
        },
        &mut || drop(black_box(evaluate(menu))),
    )
}

pub fn cascade(menu: &mut Menu) -> Both {
    let player = menu.posed();
    let count = dovebolt::pane_count(&menu.book);
    let (mut visible, mut alpha, mut handed) = (vec![0; count], vec![0.0; count], vec![0.0; count]);
    let Menu {
        sheet,
        book,
        keys,
        tree,
        info,
        labels,
        ..
    } = menu;
    side_by_side(
        &mut || {
            let answer =
                player.cascade_into(sheet, book, keys, &mut visible, &mut alpha, &mut handed);
            answer.expect("a cascade");
        },
        &mut || {
            tree.set_animation(AnimationState::evaluate(black_box(info), FRAME, labels));
            tree.update_animation_visuals();
            black_box(&tree.roots);
        },
    )
}
