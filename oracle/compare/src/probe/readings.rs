//! Whole readings without a player: one, and rows of a table of frames.

use cases::bits::bits_of;
use cases::format::sheet::Sheet;
use cases::readings::Case;
use cases::readings::rows::Rows;
use cases::readings::whole::{MATERIAL_CHANNELS, PANE_CHANNELS, Reading};

mod raw {
    unsafe extern "C" {
        pub fn probe_read_all(
            s: *const u8,
            s_len: usize,
            b: *const u8,
            b_len: usize,
            frames: *const f32,
            frames_len: usize,
            values: *const f32,
            values_len: usize,
            slopes: *const f32,
            slopes_len: usize,
            selected: bool,
            animation: usize,
            frame: f32,
            marks: *mut u8,
            marks_len: usize,
            numbers: *mut f32,
            numbers_len: usize,
        ) -> bool;
    }

    /// Declares exports that fill rows, which have one signature.
    macro_rules! rows {
        ($($name:ident)*) => {
            unsafe extern "C" {
                $(pub fn $name(
                    s: *const u8,
                    s_len: usize,
                    b: *const u8,
                    b_len: usize,
                    frames: *const f32,
                    frames_len: usize,
                    values: *const f32,
                    values_len: usize,
                    slopes: *const f32,
                    slopes_len: usize,
                    animation: usize,
                    frame: f32,
                    step: f32,
                    times: usize,
                    marks: *mut u8,
                    marks_len: usize,
                    numbers: *mut f32,
                    numbers_len: usize,
                ) -> bool;)*
            }
        };
    }

    rows! { probe_read_frames probe_read_times }
}

/// What the proved code reads, or nothing where it declines.
pub fn read_all(case: &Case) -> Option<Reading> {
    read(case, Tables::fill)
}

/// The last row that [`Tables::fill_frames`] leaves, or nothing where it declines.
pub fn read_frames(case: &Case, rows: Rows) -> Option<Reading> {
    read(case, |tables, case, sheet, book| {
        tables.fill_frames(case, sheet, book, rows)
    })
}

/// The last row that [`Tables::fill_times`] leaves, or nothing where it declines.
pub fn read_times(case: &Case, rows: Rows) -> Option<Reading> {
    read(case, |tables, case, sheet, book| {
        tables.fill_times(case, sheet, book, rows)
    })
}

fn read(
    case: &Case,
    fill: impl FnOnce(&mut Tables, &Case, &[u8], &[u8]) -> bool,
) -> Option<Reading> {
    let (sheet, book) = (case.sheet.write(), case.book.write());
    let channels =
        PANE_CHANNELS * case.book.panes.len() + MATERIAL_CHANNELS * case.book.materials.len();
    let mut tables = Tables::new(channels);
    fill(&mut tables, case, &sheet, &book).then(|| Reading {
        numbers: tables.numbers.iter().map(|&x| bits_of(x)).collect(),
        marks: tables.marks,
    })
}

/// What the rows of a call are read by.
enum Plans {
    One,
    Each,
}

/// The two outputs, in which something stands before the call.
pub struct Tables {
    marks: Vec<u8>,
    numbers: Vec<f32>,
}

impl Tables {
    pub fn new(channels: usize) -> Self {
        Self {
            marks: vec![7; channels],
            numbers: vec![-77.0; channels],
        }
    }

    pub fn fill(&mut self, case: &Case, sheet: &[u8], book: &[u8]) -> bool {
        let Sheet {
            frames,
            values,
            slopes,
            ..
        } = &case.sheet;
        let (animation, frame) = case.active.unwrap_or_default();
        unsafe {
            raw::probe_read_all(
                sheet.as_ptr(),
                sheet.len(),
                book.as_ptr(),
                book.len(),
                frames.as_ptr(),
                frames.len(),
                values.as_ptr(),
                values.len(),
                slopes.as_ptr(),
                slopes.len(),
                case.active.is_some(),
                animation,
                frame,
                self.marks.as_mut_ptr(),
                self.marks.len(),
                self.numbers.as_mut_ptr(),
                self.numbers.len(),
            )
        }
    }

    /// The checks and the plan once, then the rows; the last one stays. Something
    /// is active in the case.
    pub fn fill_frames(&mut self, case: &Case, sheet: &[u8], book: &[u8], rows: Rows) -> bool {
        self.fill_rows(Plans::One, case, sheet, book, rows)
    }

    /// The checks once, then whole readings, each with a plan of its own.
    pub fn fill_times(&mut self, case: &Case, sheet: &[u8], book: &[u8], rows: Rows) -> bool {
        self.fill_rows(Plans::Each, case, sheet, book, rows)
    }

    fn fill_rows(
        &mut self,
        plans: Plans,
        case: &Case,
        sheet: &[u8],
        book: &[u8],
        rows: Rows,
    ) -> bool {
        let read = match plans {
            Plans::One => raw::probe_read_frames,
            Plans::Each => raw::probe_read_times,
        };
        let Sheet {
            frames,
            values,
            slopes,
            ..
        } = &case.sheet;
        let (animation, frame) = case.active.expect("an active animation");
        unsafe {
            read(
                sheet.as_ptr(),
                sheet.len(),
                book.as_ptr(),
                book.len(),
                frames.as_ptr(),
                frames.len(),
                values.as_ptr(),
                values.len(),
                slopes.as_ptr(),
                slopes.len(),
                animation,
                frame,
                rows.step,
                rows.times,
                self.marks.as_mut_ptr(),
                self.marks.len(),
                self.numbers.as_mut_ptr(),
                self.numbers.len(),
            )
        }
    }
}
