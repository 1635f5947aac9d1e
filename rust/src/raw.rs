//! The exports of the proved library as they are: structs of numbers by value, a slice as a pointer and a length.
//!
//! Each function asks only that a pointer has as many elements as the length after it says, and that no lent output
//! overlaps another argument. `refusal` is 0, or a number of [`crate::Refusal`]. `include/menu.h` says what each does.
//!
//! ```
//! use dovebolt::{example, raw};
//!
//! let sheet = example::sheet();
//! let (mut frames, mut values, mut slopes) = ([0.0; 9], [0.0; 9], [0.0; 9]);
//! // SAFETY: each pointer is followed by its array's length.
//! let loaded = unsafe {
//!     raw::menu_load(
//!         sheet.as_ptr(), sheet.len(),
//!         frames.as_mut_ptr(), 9, values.as_mut_ptr(), 9, slopes.as_mut_ptr(), 9,
//!     )
//! };
//! assert_eq!((loaded.refusal, loaded.player.selection), (0, raw::NONE));
//! assert_eq!(values[6], 16.0);
//! ```

/// The number that selects nothing.
pub const NONE: u16 = 65535;

/// How many edits the journal holds.
pub const ROWS: usize = 128;

/// What a sheet holds. The key arrays are `keys` long; on a refusal every count is 0.
#[repr(C)]
#[derive(Clone, Copy, Debug, Default, PartialEq)]
pub struct SheetCounts {
    pub refusal: u8,
    pub animations: u16,
    pub contents: u16,
    pub tracks: u16,
    pub keys: u16,
    pub textures: u16,
}

/// What a book holds. A whole reading is `channels` long; on a refusal every count is 0.
#[repr(C)]
#[derive(Clone, Copy, Debug, Default, PartialEq)]
pub struct BookCounts {
    pub refusal: u8,
    pub panes: u16,
    pub materials: u16,
    pub channels: u16,
}

/// The edits that can be undone or redone. Row n % 128 belongs to standing edit number n.
#[repr(C)]
#[derive(Clone, Copy, Debug, PartialEq)]
pub struct Journal {
    pub track: [u16; ROWS],
    pub key: [u16; ROWS],
    pub before_frame: [f32; ROWS],
    pub before_value: [f32; ROWS],
    pub before_slope: [f32; ROWS],
    pub after_frame: [f32; ROWS],
    pub after_value: [f32; ROWS],
    pub after_slope: [f32; ROWS],
}

/// The key that is being dragged. While no drag is open every field is 0, and calls look at `open` alone.
///
/// `moved` says that a drag was accepted since the opening; `start_frame`, `start_value` and `start_slope` are the key
/// as it was then.
#[repr(C)]
#[derive(Clone, Copy, Debug, Default, PartialEq)]
pub struct Drag {
    pub open: bool,
    pub moved: bool,
    pub track: u16,
    pub key: u16,
    pub start_frame: f32,
    pub start_value: f32,
    pub start_slope: f32,
}

/// The player. `selection` is an animation's number, or [`NONE`].
#[repr(C)]
#[derive(Clone, Copy, Debug, PartialEq)]
pub struct Player {
    pub selection: u16,
    pub playing: bool,
    pub preview: bool,
    pub frame: f32,
    pub reach: u64,
    pub redo: u64,
    pub accepted: u64,
    pub undone: u64,
    pub redone: u64,
    pub standing: u64,
    pub journal: Journal,
    pub drag: Drag,
}

/// What a call that may move the player answers.
#[repr(C)]
#[derive(Clone, Copy, Debug, PartialEq)]
pub struct Played {
    pub refusal: u8,
    pub player: Player,
}

/// What an edit, a drag and a drop answer. `unchanged` says that it was accepted and the key has the same bits as before;
/// of a drop, the same as at the opening, or that no drag was accepted. An unchanged edit or drop leaves no edit and keeps
/// reach and redo.
#[repr(C)]
#[derive(Clone, Copy, Debug, PartialEq)]
pub struct Edited {
    pub refusal: u8,
    pub unchanged: bool,
    pub player: Player,
}

/// What a tick answers: 0 idle, 1 running, 2 ended, 3 ended with a next name.
#[repr(C)]
#[derive(Clone, Copy, Debug, PartialEq)]
pub struct Ticked {
    pub refusal: u8,
    pub answer: u8,
    pub player: Player,
}

/// What a single reading answers. `kind` is 0 nothing, 1 a number, 2 shown (1) or hidden (0), 3 a texture row, 4 a level.
#[repr(C)]
#[derive(Clone, Copy, Debug, PartialEq)]
pub struct ReadOne {
    pub refusal: u8,
    pub kind: u8,
    pub number: f32,
}

#[repr(C)]
#[derive(Clone, Copy, Debug, Default, PartialEq)]
pub struct Vector2f {
    pub x: f32,
    pub y: f32,
}

#[repr(C)]
#[derive(Clone, Copy, Debug, Default, PartialEq)]
pub struct Vector3f {
    pub x: f32,
    pub y: f32,
    pub z: f32,
}

/// What resolving a pane answers.
#[repr(C)]
#[derive(Clone, Copy, Debug, PartialEq)]
pub struct ResolvedPane {
    pub refusal: u8,
    pub visible: bool,
    pub alpha: f32,
    pub translation: Vector3f,
    pub rotation: Vector3f,
    pub scale: Vector2f,
    pub size: Vector2f,
}

/// What resolving a material's layer answers.
#[repr(C)]
#[derive(Clone, Copy, Debug, PartialEq)]
pub struct ResolvedSrt {
    pub refusal: u8,
    pub translate: Vector2f,
    pub rotate: f32,
    pub scale: Vector2f,
}

/// The four corners of a pane.
#[repr(C)]
#[derive(Clone, Copy, Debug, Default, PartialEq)]
pub struct Corners {
    pub top_left: Vector2f,
    pub top_right: Vector2f,
    pub bottom_left: Vector2f,
    pub bottom_right: Vector2f,
}

/// What a call that places corners answers.
#[repr(C)]
#[derive(Clone, Copy, Debug, PartialEq)]
pub struct Placed {
    pub refusal: u8,
    pub corners: Corners,
}

/// What turning a point answers.
#[repr(C)]
#[derive(Clone, Copy, Debug, PartialEq)]
pub struct Turned {
    pub refusal: u8,
    pub point: Vector2f,
}

unsafe extern "C" {
    pub fn menu_sheet_counts(sheet: *const u8, sheet_len: usize) -> SheetCounts;
    pub fn menu_book_counts(book: *const u8, book_len: usize) -> BookCounts;
    pub fn menu_load(
        sheet: *const u8,
        sheet_len: usize,
        frames: *mut f32,
        frames_len: usize,
        values: *mut f32,
        values_len: usize,
        slopes: *mut f32,
        slopes_len: usize,
    ) -> Played;
    pub fn menu_next_name(
        sheet: *const u8,
        sheet_len: usize,
        animation: u16,
        out: *mut u8,
        out_len: usize,
    ) -> u8;
    pub fn menu_play(player: Player, sheet: *const u8, sheet_len: usize, animation: u16) -> Played;
    pub fn menu_pose(
        player: Player,
        sheet: *const u8,
        sheet_len: usize,
        animation: u16,
        frame: f32,
    ) -> Played;
    pub fn menu_tick(
        player: Player,
        sheet: *const u8,
        sheet_len: usize,
        dt: f32,
        fps: f32,
    ) -> Ticked;
    pub fn menu_key_edit(
        player: Player,
        sheet: *const u8,
        sheet_len: usize,
        frames: *mut f32,
        frames_len: usize,
        values: *mut f32,
        values_len: usize,
        slopes: *mut f32,
        slopes_len: usize,
        track: u16,
        key: u16,
        frame: f32,
        value: f32,
    ) -> Edited;
    pub fn menu_slope_edit(
        player: Player,
        sheet: *const u8,
        sheet_len: usize,
        frames: *mut f32,
        frames_len: usize,
        values: *mut f32,
        values_len: usize,
        slopes: *mut f32,
        slopes_len: usize,
        track: u16,
        key: u16,
        slope: f32,
    ) -> Edited;
    pub fn menu_undo(
        player: Player,
        sheet: *const u8,
        sheet_len: usize,
        frames: *mut f32,
        frames_len: usize,
        values: *mut f32,
        values_len: usize,
        slopes: *mut f32,
        slopes_len: usize,
    ) -> Played;
    pub fn menu_redo(
        player: Player,
        sheet: *const u8,
        sheet_len: usize,
        frames: *mut f32,
        frames_len: usize,
        values: *mut f32,
        values_len: usize,
        slopes: *mut f32,
        slopes_len: usize,
    ) -> Played;
    pub fn menu_save(
        player: Player,
        sheet: *const u8,
        sheet_len: usize,
        frames: *const f32,
        frames_len: usize,
        values: *const f32,
        values_len: usize,
        slopes: *const f32,
        slopes_len: usize,
        out: *mut u8,
        out_len: usize,
    ) -> u8;
    pub fn menu_open_drag(
        player: Player,
        sheet: *const u8,
        sheet_len: usize,
        frames: *const f32,
        frames_len: usize,
        values: *const f32,
        values_len: usize,
        slopes: *const f32,
        slopes_len: usize,
        track: u16,
        key: u16,
    ) -> Played;
    pub fn menu_drag(
        player: Player,
        sheet: *const u8,
        sheet_len: usize,
        frames: *mut f32,
        frames_len: usize,
        values: *mut f32,
        values_len: usize,
        slopes: *mut f32,
        slopes_len: usize,
        frame: f32,
        value: f32,
    ) -> Edited;
    pub fn menu_drop_drag(
        player: Player,
        sheet: *const u8,
        sheet_len: usize,
        frames: *const f32,
        frames_len: usize,
        values: *const f32,
        values_len: usize,
        slopes: *const f32,
        slopes_len: usize,
    ) -> Edited;
    pub fn menu_abandon_drag(
        player: Player,
        sheet: *const u8,
        sheet_len: usize,
        frames: *mut f32,
        frames_len: usize,
        values: *mut f32,
        values_len: usize,
        slopes: *mut f32,
        slopes_len: usize,
    ) -> Played;
    pub fn menu_read_pane(
        player: Player,
        sheet: *const u8,
        sheet_len: usize,
        book: *const u8,
        book_len: usize,
        frames: *const f32,
        frames_len: usize,
        values: *const f32,
        values_len: usize,
        slopes: *const f32,
        slopes_len: usize,
        pane: u16,
        channel: u16,
    ) -> ReadOne;
    pub fn menu_read_material(
        player: Player,
        sheet: *const u8,
        sheet_len: usize,
        book: *const u8,
        book_len: usize,
        frames: *const f32,
        frames_len: usize,
        values: *const f32,
        values_len: usize,
        slopes: *const f32,
        slopes_len: usize,
        material: u16,
        channel: u16,
    ) -> ReadOne;
    pub fn menu_read_all(
        player: Player,
        sheet: *const u8,
        sheet_len: usize,
        book: *const u8,
        book_len: usize,
        frames: *const f32,
        frames_len: usize,
        values: *const f32,
        values_len: usize,
        slopes: *const f32,
        slopes_len: usize,
        marks: *mut u8,
        marks_len: usize,
        numbers: *mut f32,
        numbers_len: usize,
    ) -> u8;
    pub fn menu_resolve_pane(
        player: Player,
        sheet: *const u8,
        sheet_len: usize,
        book: *const u8,
        book_len: usize,
        frames: *const f32,
        frames_len: usize,
        values: *const f32,
        values_len: usize,
        slopes: *const f32,
        slopes_len: usize,
        pane: u16,
    ) -> ResolvedPane;
    pub fn menu_resolve_srt(
        player: Player,
        sheet: *const u8,
        sheet_len: usize,
        book: *const u8,
        book_len: usize,
        frames: *const f32,
        frames_len: usize,
        values: *const f32,
        values_len: usize,
        slopes: *const f32,
        slopes_len: usize,
        material: u16,
        layer: u16,
    ) -> ResolvedSrt;
    pub fn menu_texture_name(
        player: Player,
        sheet: *const u8,
        sheet_len: usize,
        book: *const u8,
        book_len: usize,
        frames: *const f32,
        frames_len: usize,
        values: *const f32,
        values_len: usize,
        slopes: *const f32,
        slopes_len: usize,
        material: u16,
        slot: u16,
        out: *mut u8,
        out_len: usize,
    ) -> u8;
    pub fn menu_cascade(
        player: Player,
        sheet: *const u8,
        sheet_len: usize,
        book: *const u8,
        book_len: usize,
        frames: *const f32,
        frames_len: usize,
        values: *const f32,
        values_len: usize,
        slopes: *const f32,
        slopes_len: usize,
        visible: *mut u8,
        visible_len: usize,
        alpha: *mut f32,
        alpha_len: usize,
        influence: *mut f32,
        influence_len: usize,
    ) -> u8;
    pub fn menu_reach(
        sheet: *const u8,
        sheet_len: usize,
        book: *const u8,
        book_len: usize,
        frames: *const f32,
        frames_len: usize,
        values: *const f32,
        values_len: usize,
        slopes: *const f32,
        slopes_len: usize,
        new_frames: *const f32,
        new_frames_len: usize,
        new_values: *const f32,
        new_values_len: usize,
        new_slopes: *const f32,
        new_slopes_len: usize,
        animation: u16,
        channels: *mut u8,
        channels_len: usize,
        panes: *mut u8,
        panes_len: usize,
    ) -> u8;
    pub fn menu_uvs(
        layers: *const f32,
        layers_len: usize,
        srts: *const f32,
        srts_len: usize,
        out: *mut f32,
        out_len: usize,
    ) -> u8;
    pub fn menu_corners(
        center: Vector2f,
        size: Vector2f,
        horizontal: u8,
        vertical: u8,
        rotation: Vector3f,
    ) -> Placed;
    pub fn menu_translate(corners: Corners, delta: Vector2f) -> Placed;
    pub fn menu_rotate_point(point: Vector2f, center: Vector2f, rotation: Vector3f) -> Turned;
}
