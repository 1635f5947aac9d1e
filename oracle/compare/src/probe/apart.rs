//! Whether a track reads differently with other keys.

use cases::format::load::Arrays;

mod raw {
    unsafe extern "C" {
        pub fn probe_apart(
            s: *const u8,
            s_len: usize,
            b: *const u8,
            b_len: usize,
            frames: *const f32,
            frames_len: usize,
            values: *const f32,
            values_len: usize,
            slopes: *const f32,
            slopes_len: usize,
            new_frames: *const f32,
            new_frames_len: usize,
            new_values: *const f32,
            new_values_len: usize,
            new_slopes: *const f32,
            new_slopes_len: usize,
            t: usize,
            x: f32,
        ) -> u8;
    }
}

/// Of a track at a frame, or nothing where a test fails.
pub fn apart(
    (sheet, book): (&[u8], &[u8]),
    [frames, values, slopes]: &Arrays,
    [new_frames, new_values, new_slopes]: &Arrays,
    track: usize,
    frame: f32,
) -> Option<bool> {
    let answer = unsafe {
        raw::probe_apart(
            sheet.as_ptr(),
            sheet.len(),
            book.as_ptr(),
            book.len(),
            frames.as_ptr(),
            frames.len(),
            values.as_ptr(),
            values.len(),
            slopes.as_ptr(),
            slopes.len(),
            new_frames.as_ptr(),
            new_frames.len(),
            new_values.as_ptr(),
            new_values.len(),
            new_slopes.as_ptr(),
            new_slopes.len(),
            track,
            frame,
        )
    };
    (answer != 0).then_some(answer == 2)
}
