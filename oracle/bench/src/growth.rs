//! How the cost of a reading grows, the rest being full.

use crate::menus::{FULL, Menu};
use crate::page::Page;
use crate::readings;
use crate::tables::{PLAN_AND_ROW, PLANNED_ROW};
use cases::sheets::{books, good};

/// With the animations that the contents are divided among, of which the first
/// is read.
pub fn animations(page: Page) {
    let good::Size {
        contents,
        targets,
        keys,
        ..
    } = good::FULL;
    let sizes = format!("{contents} contents, {targets} targets, {keys} keys");
    page.head(
        &format!("animations: {sizes} divided among them, one read"),
        &[
            "animations",
            "targets of the one read",
            "checks",
            PLANNED_ROW,
            "the Rust's `evaluate`",
            "ratio",
            PLAN_AND_ROW,
            "ratio to `evaluate`",
            "whole reading",
            "ratio to `evaluate`",
        ],
    );
    for parts in [1, 2, 4, 8] {
        let menu = Menu::new(FULL, Some(parts));
        let planned_row = readings::planned_row(&menu);
        let plan_and_row = readings::plan_and_row(&menu);
        let whole = readings::whole_reading(&menu);
        page.row(&[
            parts.to_string(),
            menu.targets().count().to_string(),
            page.cell(readings::checks(&menu)),
            page.cell(planned_row.ours),
            page.cell(planned_row.beside),
            page.ratio(planned_row.ratio),
            page.cell(plan_and_row.ours),
            page.ratio(plan_and_row.ratio),
            page.cell(whole.ours),
            page.ratio(whole.ratio),
        ]);
    }
}

/// With contents, targets and keys.
pub fn table(page: Page) {
    page.head(
        "growth",
        &[
            "contents",
            "targets",
            "keys",
            "checks",
            PLANNED_ROW,
            PLAN_AND_ROW,
            "whole reading",
            "the Rust's `evaluate`",
        ],
    );
    let full = good::FULL;
    for part in [4, 2, 1] {
        let contents = full.contents / part;
        row(page, good::Size { contents, ..full });
    }
    for part in [4, 2] {
        let targets = full.targets / part;
        row(page, good::Size { targets, ..full });
    }
    for part in [4, 2] {
        let keys = full.keys / part;
        row(page, good::Size { keys, ..full });
    }
}

fn row(page: Page, size: good::Size) {
    let menu = Menu::new((size, books::FULL), Some(1));
    let planned_row = readings::planned_row(&menu);
    page.row(&[
        size.contents.to_string(),
        size.targets.to_string(),
        size.keys.to_string(),
        page.cell(readings::checks(&menu)),
        page.cell(planned_row.ours),
        page.cell(readings::plan_and_row(&menu).ours),
        page.cell(readings::whole_reading(&menu).ours),
        page.cell(planned_row.beside),
    ]);
}
