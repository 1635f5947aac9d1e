//! Saving: the sheet's own rows with other keys in the place of its own.

use super::load::Arrays;
use super::sheet::Sheet;

pub fn written(sheet: &Sheet, keys: &Arrays) -> Vec<u8> {
    let [frames, values, slopes] = keys.clone();
    let saved = Sheet {
        frames,
        values,
        slopes,
        ..sheet.clone()
    };
    saved.write()
}
