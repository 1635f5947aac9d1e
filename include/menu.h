/* Dovebolt: the outward calls of the proved menu player, for C.
 *
 * Link target/staticlib/libmenu_c.a, which `tools/archives` writes (x86-64 Linux, SSE4.2).
 *
 * A sheet holds the animations, a book the panes and materials that they move. A slice is a pointer and a length in
 * elements. A call asks only that a pointer has that many elements (any pointer will do for none), and that no output
 * overlaps another argument. It answers a refusal, 0 for none: the first that applies, in the order of the call's comment.
 * On a refusal nothing that was lent has changed, the player comes back as it was, and other answers are 0.
 */
#ifndef MENU_H
#define MENU_H

#include <stdbool.h>
#include <stddef.h>
#include <stdint.h>

#ifdef __cplusplus
extern "C" {
#endif

/* ---- refusals */
enum menu_refusal {
    MENU_OK = 0,
    MENU_SHEET = 1,              /* the sheet breaks its layout */
    MENU_BOOK = 2,               /* the book breaks its layout */
    MENU_KEY_LENGTHS = 3,        /* a key array is not as long as the sheet has keys */
    MENU_KEY_RULES = 4,          /* the keys break the key rules */
    MENU_STATE = 5,              /* the player's state is broken, or an undo's or redo's key is not as its entry says */
    MENU_ANIMATION = 6,          /* no such animation, or nothing is active */
    MENU_NO_SUCH = 7,            /* no such track in the active animation, key, channel, pane, material, layer or origin */
    MENU_NOT_FINITE = 8,         /* a number is not finite, or UV layers or SRTs are not whole entries */
    MENU_OVERTAKES = 9,          /* the clamped frame is above the next key's */
    MENU_NOT_HERMITE = 10,       /* the curve is not Hermite */
    MENU_NOTHING_TO_RETURN = 11, /* nothing to undo, or to redo */
    MENU_ANGLE = 12,             /* an angle above 3,600 degrees */
    MENU_OUTPUT_LENGTH = 13,     /* an output is not exactly as long as it must be */
    MENU_SAVE_LENGTH = 14,       /* the buffer is not as long as the sheet */
    MENU_DRAG = 15               /* a drag is open, or none is */
};

/* ---- lengths and numbers */
enum {
    MENU_NONE = 65535,          /* the number that selects no animation */
    MENU_ROWS = 128,            /* rows of the journal */
    MENU_NAME = 24,             /* bytes of a name; zero bytes at its end don't count */
    MENU_UVS = 24,              /* numbers of a UV block */
    MENU_PANE_CHANNELS = 28,    /* translation, rotation, scale, size, visible, alpha, 16 corner colours */
    MENU_MATERIAL_CHANNELS = 30 /* 3 layers of an SRT, 3 textures, indirect rotation and scales, alpha reference, 8 colours */
};

/* ---- channels, in the scope paper's order. A name is that of its variant in the published Rust's targets.rs, or the
 * paper's own word (VISIBLE, ALPHA, TEXTURE_0, BLACK_RED); docs/FORMAT.md has each one's code, raw number and variant */
enum menu_pane_channel {
    MENU_PANE_TRANSLATE_X = 0,
    MENU_PANE_TRANSLATE_Y = 1,
    MENU_PANE_TRANSLATE_Z = 2,
    MENU_PANE_ROTATE_X = 3,
    MENU_PANE_ROTATE_Y = 4,
    MENU_PANE_ROTATE_Z = 5,
    MENU_PANE_SCALE_X = 6,
    MENU_PANE_SCALE_Y = 7,
    MENU_PANE_SIZE_X = 8,
    MENU_PANE_SIZE_Y = 9,
    MENU_PANE_VISIBLE = 10,
    MENU_PANE_ALPHA = 11,
    MENU_PANE_LEFT_TOP_RED = 12,
    MENU_PANE_LEFT_TOP_GREEN = 13,
    MENU_PANE_LEFT_TOP_BLUE = 14,
    MENU_PANE_LEFT_TOP_ALPHA = 15,
    MENU_PANE_RIGHT_TOP_RED = 16,
    MENU_PANE_RIGHT_TOP_GREEN = 17,
    MENU_PANE_RIGHT_TOP_BLUE = 18,
    MENU_PANE_RIGHT_TOP_ALPHA = 19,
    MENU_PANE_LEFT_BOTTOM_RED = 20,
    MENU_PANE_LEFT_BOTTOM_GREEN = 21,
    MENU_PANE_LEFT_BOTTOM_BLUE = 22,
    MENU_PANE_LEFT_BOTTOM_ALPHA = 23,
    MENU_PANE_RIGHT_BOTTOM_RED = 24,
    MENU_PANE_RIGHT_BOTTOM_GREEN = 25,
    MENU_PANE_RIGHT_BOTTOM_BLUE = 26,
    MENU_PANE_RIGHT_BOTTOM_ALPHA = 27
};

enum menu_material_channel {
    MENU_MATERIAL_LAYER_0_TRANSLATE_U = 0,
    MENU_MATERIAL_LAYER_0_TRANSLATE_V = 1,
    MENU_MATERIAL_LAYER_0_ROTATE = 2,
    MENU_MATERIAL_LAYER_0_SCALE_U = 3,
    MENU_MATERIAL_LAYER_0_SCALE_V = 4,
    MENU_MATERIAL_LAYER_1_TRANSLATE_U = 5,
    MENU_MATERIAL_LAYER_1_TRANSLATE_V = 6,
    MENU_MATERIAL_LAYER_1_ROTATE = 7,
    MENU_MATERIAL_LAYER_1_SCALE_U = 8,
    MENU_MATERIAL_LAYER_1_SCALE_V = 9,
    MENU_MATERIAL_LAYER_2_TRANSLATE_U = 10,
    MENU_MATERIAL_LAYER_2_TRANSLATE_V = 11,
    MENU_MATERIAL_LAYER_2_ROTATE = 12,
    MENU_MATERIAL_LAYER_2_SCALE_U = 13,
    MENU_MATERIAL_LAYER_2_SCALE_V = 14,
    MENU_MATERIAL_TEXTURE_0 = 15,
    MENU_MATERIAL_TEXTURE_1 = 16,
    MENU_MATERIAL_TEXTURE_2 = 17,
    MENU_MATERIAL_INDIRECT_ROTATE = 18,
    MENU_MATERIAL_INDIRECT_SCALE_U = 19,
    MENU_MATERIAL_INDIRECT_SCALE_V = 20,
    MENU_MATERIAL_ALPHA_REFERENCE = 21,
    MENU_MATERIAL_BLACK_RED = 22,
    MENU_MATERIAL_BLACK_GREEN = 23,
    MENU_MATERIAL_BLACK_BLUE = 24,
    MENU_MATERIAL_BLACK_ALPHA = 25,
    MENU_MATERIAL_WHITE_RED = 26,
    MENU_MATERIAL_WHITE_GREEN = 27,
    MENU_MATERIAL_WHITE_BLUE = 28,
    MENU_MATERIAL_WHITE_ALPHA = 29
};

/* what a tick came to */
enum menu_tick_answer { MENU_IDLE = 0, MENU_RUNNING = 1, MENU_ENDED = 2, MENU_NEXT = 3 };

/* what a reading is: its number is 0 for nothing and hidden, 1 for shown */
enum menu_reading_kind { MENU_NOTHING = 0, MENU_NUMBER = 1, MENU_SHOWN = 2, MENU_ROW = 3, MENU_LEVEL = 4 };

/* ---- structs */

/* What a sheet holds. The key arrays are `keys` long. */
typedef struct {
    uint8_t refusal;
    uint16_t animations;
    uint16_t contents;
    uint16_t tracks;
    uint16_t keys;
    uint16_t textures;
} menu_counted_sheet;

/* What a book holds. A whole reading is `channels` long: MENU_PANE_CHANNELS a pane, MENU_MATERIAL_CHANNELS a material. */
typedef struct {
    uint8_t refusal;
    uint16_t panes;
    uint16_t materials;
    uint16_t channels;
} menu_counted_book;

/* The edits that can be undone or redone. Row n % 128 belongs to standing edit number n. */
typedef struct {
    uint16_t track[MENU_ROWS];
    uint16_t key[MENU_ROWS];
    float before_frame[MENU_ROWS];
    float before_value[MENU_ROWS];
    float before_slope[MENU_ROWS];
    float after_frame[MENU_ROWS];
    float after_value[MENU_ROWS];
    float after_slope[MENU_ROWS];
} menu_journal;

/* The key that is being dragged. While no drag is open every field is 0, and calls look at `open` alone. */
typedef struct {
    bool open;
    bool moved; /* a drag was accepted since the opening; without one a drop leaves no edit */
    uint16_t track;
    uint16_t key;
    float start_frame; /* the key as it was at the opening, which an abandon puts back */
    float start_value;
    float start_slope;
} menu_drag_state;

/* Made by menu_load, handed in by value and taken back from each answer. */
typedef struct {
    uint16_t selection; /* an animation's number, or MENU_NONE */
    bool playing;
    bool preview;
    float frame;
    uint64_t reach; /* edits that can be undone */
    uint64_t redo;  /* edits that can be redone */
    uint64_t accepted;
    uint64_t undone;
    uint64_t redone;
    uint64_t standing; /* edits that stand */
    menu_journal journal;
    menu_drag_state drag;
} menu_player;

typedef struct {
    uint8_t refusal;
    menu_player player;
} menu_played;

/* What an edit, a drag and a drop answer. Unchanged: it was accepted, and the key's frame, value and slope have the same
 * bits as before; of a drop, the same as at the opening, or no drag was accepted. -0 and +0 differ. An unchanged edit or
 * drop leaves no edit and keeps reach and redo. After an unchanged drag the drop may still be an edit. */
typedef struct {
    uint8_t refusal;
    bool unchanged;
    menu_player player;
} menu_edited;

typedef struct {
    uint8_t refusal;
    uint8_t answer; /* enum menu_tick_answer */
    menu_player player;
} menu_ticked;

typedef struct {
    uint8_t refusal;
    uint8_t kind; /* enum menu_reading_kind */
    float number;
} menu_read_one;

typedef struct {
    float x, y;
} menu_vector2;

typedef struct {
    float x, y, z;
} menu_vector3;

/* A pane's overrides, else the book's. Angles are degrees. */
typedef struct {
    uint8_t refusal;
    bool visible;
    float alpha;
    menu_vector3 translation;
    menu_vector3 rotation;
    menu_vector2 scale;
    menu_vector2 size;
} menu_resolved_pane;

typedef struct {
    uint8_t refusal;
    menu_vector2 translate;
    float rotate;
    menu_vector2 scale;
} menu_resolved_srt;

typedef struct {
    menu_vector2 top_left;
    menu_vector2 top_right;
    menu_vector2 bottom_left;
    menu_vector2 bottom_right;
} menu_corners_set;

typedef struct {
    uint8_t refusal;
    menu_corners_set corners;
} menu_placed;

typedef struct {
    uint8_t refusal;
    menu_vector2 point;
} menu_turned;

/* ---- counts: how long the arrays must be that later calls take */

/* Refusal 1. */
menu_counted_sheet menu_sheet_counts(const uint8_t *sheet, size_t sheet_len);

/* Refusal 2. */
menu_counted_book menu_book_counts(const uint8_t *book, size_t book_len);

/* ---- loading and playing */

/* The sheet's keys into three arrays, each as long as menu_sheet_counts says, with a fresh player. Refusals 1, 3, 4, the
 * last where the sheet's own keys break the key rules. */
menu_played menu_load(const uint8_t *sheet, size_t sheet_len, float *frames, size_t frames_len, float *values,
                      size_t values_len, float *slopes, size_t slopes_len);

/* The name that follows an animation, into MENU_NAME bytes: all zero where none does. Refusals 1, 6, 13. */
uint8_t menu_next_name(const uint8_t *sheet, size_t sheet_len, uint16_t animation, uint8_t *out, size_t out_len);

/* Plays an animation from its start; MENU_NONE does nothing. Refusals 1, 5, 6. */
menu_played menu_play(menu_player player, const uint8_t *sheet, size_t sheet_len, uint16_t animation);

/* Holds an animation at a frame; MENU_NONE, and a number that the sheet doesn't have, clear the selection.
 * Refusals 1, 5, 8. */
menu_played menu_pose(menu_player player, const uint8_t *sheet, size_t sheet_len, uint16_t animation, float frame);

/* Lets dt seconds pass at fps frames a second. After MENU_NEXT, menu_next_name of the player's selection has the name.
 * Refusals 1, 5, 8, the last also where a playing tick would leave a frame that is not finite. */
menu_ticked menu_tick(menu_player player, const uint8_t *sheet, size_t sheet_len, float dt, float fps);

/* ---- editing: the keys are those that menu_load filled
 *
 * After an unchanged edit player and keys are as they were. */

/* Moves a key of the active animation to a frame and a value, held between its neighbours.
 * Refusals 1, 3 to 6, 15, 7 to 9. */
menu_edited menu_key_edit(menu_player player, const uint8_t *sheet, size_t sheet_len, float *frames, size_t frames_len,
                          float *values, size_t values_len, float *slopes, size_t slopes_len, uint16_t track,
                          uint16_t key, float frame, float value);

/* Gives a Hermite key of the active animation a slope. Refusals 1, 3 to 6, 15, 7, 8, 10. */
menu_edited menu_slope_edit(menu_player player, const uint8_t *sheet, size_t sheet_len, float *frames,
                            size_t frames_len, float *values, size_t values_len, float *slopes, size_t slopes_len,
                            uint16_t track, uint16_t key, float slope);

/* Takes the last standing edit back. Refusals 1, 3 to 5, 15, 11. */
menu_played menu_undo(menu_player player, const uint8_t *sheet, size_t sheet_len, float *frames, size_t frames_len,
                      float *values, size_t values_len, float *slopes, size_t slopes_len);

/* Makes the edit that was undone last again. Refusals 1, 3 to 5, 15, 11. */
menu_played menu_redo(menu_player player, const uint8_t *sheet, size_t sheet_len, float *frames, size_t frames_len,
                      float *values, size_t values_len, float *slopes, size_t slopes_len);

/* The sheet with the keys as they are now, into a buffer as long as the sheet: everything but the two key arrays is
 * copied. Refusals 1, 3 to 5, 14. */
uint8_t menu_save(menu_player player, const uint8_t *sheet, size_t sheet_len, const float *frames, size_t frames_len,
                  const float *values, size_t values_len, const float *slopes, size_t slopes_len, uint8_t *out,
                  size_t out_len);

/* ---- dragging: a key is moved any number of times, and undo sees one edit or none
 *
 * While a drag is open, edits, undo, redo and a second opening are declined by 15. Plays, poses, ticks, readings and
 * saves go on and see the key where it is. An open drag whose row is out of range is declined by 5, and so is, where keys
 * are taken, one whose starting key, put back, would break the key rules. */

/* Opens a drag of a key of the active animation, and remembers the key as it is. Refusals 1, 3 to 6, 15, 7. */
menu_played menu_open_drag(menu_player player, const uint8_t *sheet, size_t sheet_len, const float *frames,
                           size_t frames_len, const float *values, size_t values_len, const float *slopes,
                           size_t slopes_len, uint16_t track, uint16_t key);

/* Moves the opened key as menu_key_edit does, whatever animation is active by now, and counts nothing. An unchanged drag
 * sets `moved` too. Refusals 1, 3 to 5, 15, 8, 9. */
menu_edited menu_drag(menu_player player, const uint8_t *sheet, size_t sheet_len, float *frames, size_t frames_len,
                      float *values, size_t values_len, float *slopes, size_t slopes_len, float frame, float value);

/* Closes the drag and leaves the key where it is: unless unchanged, that is one edit from the key at the opening to the
 * key now. Refusals 1, 3 to 5, 15. */
menu_edited menu_drop_drag(menu_player player, const uint8_t *sheet, size_t sheet_len, const float *frames,
                           size_t frames_len, const float *values, size_t values_len, const float *slopes,
                           size_t slopes_len);

/* Closes the drag and puts the key back as it was at the opening. There is no edit, and reach and redo are kept.
 * Refusals 1, 3 to 5, 15. */
menu_played menu_abandon_drag(menu_player player, const uint8_t *sheet, size_t sheet_len, float *frames,
                              size_t frames_len, float *values, size_t values_len, float *slopes, size_t slopes_len);

/* ---- readings: what the active animation makes of the book's panes and materials */

/* One channel of a pane, an enum menu_pane_channel. Refusals 1 to 5, 7. */
menu_read_one menu_read_pane(menu_player player, const uint8_t *sheet, size_t sheet_len, const uint8_t *book,
                             size_t book_len, const float *frames, size_t frames_len, const float *values,
                             size_t values_len, const float *slopes, size_t slopes_len, uint16_t pane,
                             uint16_t channel);

/* One channel of a material, an enum menu_material_channel. Refusals 1 to 5, 7. */
menu_read_one menu_read_material(menu_player player, const uint8_t *sheet, size_t sheet_len, const uint8_t *book,
                                 size_t book_len, const float *frames, size_t frames_len, const float *values,
                                 size_t values_len, const float *slopes, size_t slopes_len, uint16_t material,
                                 uint16_t channel);

/* Every channel, panes first: a mark (0 or 1) and a number (0 where unmarked). Both outputs are as long as
 * the book has channels (menu_book_counts): channel c of pane p is at p * MENU_PANE_CHANNELS + c, and of material m, after
 * all panes, at m * MENU_MATERIAL_CHANNELS + c. Refusals 1 to 5, 13. */
uint8_t menu_read_all(menu_player player, const uint8_t *sheet, size_t sheet_len, const uint8_t *book, size_t book_len,
                      const float *frames, size_t frames_len, const float *values, size_t values_len,
                      const float *slopes, size_t slopes_len, uint8_t *marks, size_t marks_len, float *numbers,
                      size_t numbers_len);

/* A pane's transform, visibility and alpha. Refusals 1 to 5, 7. */
menu_resolved_pane menu_resolve_pane(menu_player player, const uint8_t *sheet, size_t sheet_len, const uint8_t *book,
                                     size_t book_len, const float *frames, size_t frames_len, const float *values,
                                     size_t values_len, const float *slopes, size_t slopes_len, uint16_t pane);

/* The SRT of a material's layer, 0 to 2. Refusals 1 to 5, 7. */
menu_resolved_srt menu_resolve_srt(menu_player player, const uint8_t *sheet, size_t sheet_len, const uint8_t *book,
                                   size_t book_len, const float *frames, size_t frames_len, const float *values,
                                   size_t values_len, const float *slopes, size_t slopes_len, uint16_t material,
                                   uint16_t layer);

/* The name in a material's texture slot, 0 to 2, into MENU_NAME bytes: the sheet's where it is overridden, else the
 * book's. Refusals 1 to 5, 7, 13. */
uint8_t menu_texture_name(menu_player player, const uint8_t *sheet, size_t sheet_len, const uint8_t *book,
                          size_t book_len, const float *frames, size_t frames_len, const float *values,
                          size_t values_len, const float *slopes, size_t slopes_len, uint16_t material, uint16_t slot,
                          uint8_t *out, size_t out_len);

/* Each pane's visibility (0 or 1) and alpha under its parents, and the influence that it hands its children. The three
 * outputs are as long as the book has panes (menu_book_counts). Refusals 1 to 5, 13. */
uint8_t menu_cascade(menu_player player, const uint8_t *sheet, size_t sheet_len, const uint8_t *book, size_t book_len,
                     const float *frames, size_t frames_len, const float *values, size_t values_len,
                     const float *slopes, size_t slopes_len, uint8_t *visible, size_t visible_len, float *alpha,
                     size_t alpha_len, float *influence, size_t influence_len);

/* ---- what differing keys reach */

/* Of two sets of keys for one sheet, before and after some edits, marks what can read differently while the animation is
 * active. `channels`, as long and in the order of a whole reading: 1 where the track that decides the channel has a key
 * whose bits differ, else 0. `panes`, as long as the book has panes: 1 where a channel of the pane's own is marked, 2 where
 * its visibility or alpha under its parents follows a parent's that is, 3 where both, else 0. What is marked 0 reads the
 * same at every frame. Refusals 1 to 4, 6, 13; 3 and 4 look at both sets. */
uint8_t menu_reach(const uint8_t *sheet, size_t sheet_len, const uint8_t *book, size_t book_len, const float *frames,
                   size_t frames_len, const float *values, size_t values_len, const float *slopes, size_t slopes_len,
                   const float *new_frames, size_t new_frames_len, const float *new_values, size_t new_values_len,
                   const float *new_slopes, size_t new_slopes_len, uint16_t animation, uint8_t *channels,
                   size_t channels_len, uint8_t *panes, size_t panes_len);

/* ---- texture coordinates and corners */

/* Layers are 8 numbers each (u and v of top left, top right, bottom left, bottom right), SRTs 5 each (translate u, v,
 * rotate, scale u, v), the output MENU_UVS numbers: corner by corner, layer by layer, u and v. A missing layer is the
 * unit square; a layer without an SRT is left as it is. Refusals 8, 12, 13. */
uint8_t menu_uvs(const float *layers, size_t layers_len, const float *srts, size_t srts_len, float *out,
                 size_t out_len);

/* The corners of a pane about its pivot. Origins: 0 centre, 1 left or top, 2 right or bottom. Refusals 7, 8, 12. */
menu_placed menu_corners(menu_vector2 center, menu_vector2 size, uint8_t horizontal, uint8_t vertical,
                         menu_vector3 rotation);

/* Corners moved by delta. Refusal 8. */
menu_placed menu_translate(menu_corners_set corners, menu_vector2 delta);

/* A point about a centre, turned by three angles in degrees. Refusals 8, 12. */
menu_turned menu_rotate_point(menu_vector2 point, menu_vector2 center, menu_vector3 rotation);

#ifdef __cplusplus
}
#endif

#endif
