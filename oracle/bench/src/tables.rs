//! The table of a menu, and that of texture coordinates and corners.

use crate::menus::Menu;
use crate::page::Page;
use crate::timing::{Both, Figure};
use crate::{drags, players, readings, saving, shapes};

/// What the aims ask about a menu.
pub struct MenuTimes {
    pub save: Both,
    pub checks: Figure,
    pub planned_row: Both,
    pub whole_reading: Both,
    pub play: Both,
    pub tick: Both,
    pub edit: Both,
    pub undo: Figure,
}

pub struct ShapeTimes {
    pub uvs: Both,
    pub corners: Both,
}

/// Names of times that other tables have too.
pub const PLANNED_ROW: &str = "a row of a plan";
pub const PLAN_AND_ROW: &str = "plan and row, no checks";

const COLUMNS: [&str; 4] = ["what", "ours, µs", "the Rust, µs", "ratio"];

/// Each row is printed as soon as it is measured, and handed on.
impl Page {
    fn alone(self, what: &str, ours: Figure) -> Figure {
        self.row(&[what.into(), self.cell(ours), String::new(), String::new()]);
        ours
    }

    fn beside_the_rust(self, what: &str, both: Both) -> Both {
        let Both {
            ours,
            beside,
            ratio,
        } = both;
        self.row(&[
            what.into(),
            self.cell(ours),
            self.cell(beside),
            self.ratio(ratio),
        ]);
        both
    }

    /// Ours beside another call of ours.
    fn beside_ours(self, what: &str, other: &str, both: Both) -> Both {
        let ratio = format!("{} {other}", self.ratio(both.ratio));
        self.row(&[what.into(), self.cell(both.ours), String::new(), ratio]);
        both
    }
}

fn title(name: &str, menu: &Menu) -> String {
    let (sheet, book) = (&menu.case.sheet, &menu.case.book);
    format!(
        "{name}: {} contents, {} targets, {} keys; {} panes, {} materials",
        sheet.contents.len(),
        sheet.targets.len(),
        sheet.frames.len(),
        book.panes.len(),
        book.materials.len()
    )
}

pub fn menu(page: Page, name: &str, menu: &mut Menu) -> MenuTimes {
    page.head(&title(name, menu), &COLUMNS);
    page.alone("loading", saving::load(menu));
    let save = page.beside_ours("saving with its checks", "loading", saving::save(menu));
    let plain = page.cell(saving::plain_writer(menu));
    let what = "the same bytes in plain Rust, nothing checked";
    page.row(&[what.into(), String::new(), plain, String::new()]);
    let (checks, planned_row, whole_reading) = reading_rows(page, menu);
    let (play, tick, edit) = player_rows(page, menu);
    let undo = page.alone("undo or redo with its checks", players::undo(menu));
    MenuTimes {
        save,
        checks,
        planned_row,
        whole_reading,
        play,
        tick,
        edit,
        undo,
    }
}

fn reading_rows(page: Page, menu: &mut Menu) -> (Figure, Both, Both) {
    let checks = page.alone(
        "checks of a reading alone (rows 1 to 5)",
        readings::checks(menu),
    );
    let planned_row = page.beside_the_rust(PLANNED_ROW, readings::planned_row(menu));
    page.beside_the_rust(PLAN_AND_ROW, readings::plan_and_row(menu));
    let whole = page.beside_the_rust(
        "whole reading with its checks",
        readings::whole_reading(menu),
    );
    page.beside_the_rust(
        "single reading with its checks",
        readings::single_reading(menu),
    );
    page.beside_the_rust("cascade with its checks", readings::cascade(menu));
    (checks, planned_row, whole)
}

fn player_rows(page: Page, menu: &mut Menu) -> (Both, Both, Both) {
    let play = page.beside_the_rust("play with its checks", players::play(menu));
    let tick = page.beside_the_rust("tick with its checks", players::tick(menu));
    let edit = page.beside_the_rust("key edit with its checks", players::edit(menu));
    page.alone(
        "unchanged key edit with its checks",
        players::unchanged(menu),
    );
    page.beside_ours("drag with its checks", "key edit", drags::drag(menu));
    page.beside_ours(
        "open, drag and drop with their checks",
        "key edit",
        drags::whole(menu),
    );
    (play, tick, edit)
}

pub fn shapes(page: Page) -> ShapeTimes {
    page.head("texture coordinates and corners", &COLUMNS);
    ShapeTimes {
        uvs: page.beside_the_rust("three layers transformed", shapes::uvs()),
        corners: page.beside_the_rust("corners, turned about three axes", shapes::corners()),
    }
}
