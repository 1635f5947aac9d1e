//! Whether bytes are a sheet, or a book, whether keys follow the key rules, and
//! loading.

use cases::format::load::{Answer, Arrays};

mod raw {
    unsafe extern "C" {
        pub fn probe_sheet_ok(s: *const u8, s_len: usize) -> bool;
        pub fn probe_book_ok(b: *const u8, b_len: usize) -> bool;
        pub fn probe_keys_ok(
            s: *const u8,
            s_len: usize,
            frames: *const f32,
            frames_len: usize,
            values: *const f32,
            values_len: usize,
            slopes: *const f32,
            slopes_len: usize,
        ) -> bool;
        pub fn probe_load(
            s: *const u8,
            s_len: usize,
            frames: *mut f32,
            frames_len: usize,
            values: *mut f32,
            values_len: usize,
            slopes: *mut f32,
            slopes_len: usize,
        ) -> u8;
    }
}

pub fn sheet_ok(bytes: &[u8]) -> bool {
    unsafe { raw::probe_sheet_ok(bytes.as_ptr(), bytes.len()) }
}

pub fn book_ok(bytes: &[u8]) -> bool {
    unsafe { raw::probe_book_ok(bytes.as_ptr(), bytes.len()) }
}

pub fn keys_ok(sheet: &[u8], frames: &[f32], values: &[f32], slopes: &[f32]) -> bool {
    unsafe {
        raw::probe_keys_ok(
            sheet.as_ptr(),
            sheet.len(),
            frames.as_ptr(),
            frames.len(),
            values.as_ptr(),
            values.len(),
            slopes.as_ptr(),
            slopes.len(),
        )
    }
}

/// Loads a sheet into the arrays.
pub fn load(sheet: &[u8], arrays: &Arrays) -> Answer {
    let [mut frames, mut values, mut slopes] = arrays.clone();
    let refusal = unsafe {
        raw::probe_load(
            sheet.as_ptr(),
            sheet.len(),
            frames.as_mut_ptr(),
            frames.len(),
            values.as_mut_ptr(),
            values.len(),
            slopes.as_mut_ptr(),
            slopes.len(),
        )
    };
    Answer::new(refusal, [frames, values, slopes])
}
