/* Every call of menu.h on a small sheet and book, which the arguments name. Prints each assertion that fails. */
#include "menu.h"

#include <math.h>
#include <stdio.h>
#include <string.h>

static int failed = 0;

#define CHECK(claim)                                             \
    do {                                                         \
        if (!(claim)) {                                          \
            printf("line %d: %s does not hold\n", __LINE__, #claim); \
            failed = 1;                                          \
        }                                                        \
    } while (0)

_Static_assert(sizeof(menu_counted_sheet) == 12, "menu_counted_sheet");
_Static_assert(sizeof(menu_counted_book) == 8, "menu_counted_book");
_Static_assert(sizeof(menu_journal) == 3584, "menu_journal");
_Static_assert(sizeof(menu_drag_state) == 20, "menu_drag_state");
_Static_assert(sizeof(menu_player) == 3664, "menu_player");
_Static_assert(sizeof(menu_played) == 3672, "menu_played");
_Static_assert(sizeof(menu_edited) == 3672, "menu_edited");
_Static_assert(sizeof(menu_ticked) == 3672, "menu_ticked");
_Static_assert(sizeof(menu_read_one) == 8, "menu_read_one");
_Static_assert(sizeof(menu_resolved_pane) == 48, "menu_resolved_pane");
_Static_assert(sizeof(menu_resolved_srt) == 24, "menu_resolved_srt");
_Static_assert(sizeof(menu_placed) == 36, "menu_placed");
_Static_assert(sizeof(menu_turned) == 12, "menu_turned");

_Static_assert(offsetof(menu_counted_sheet, refusal) == 0, "menu_counted_sheet");
_Static_assert(offsetof(menu_counted_sheet, animations) == 2, "menu_counted_sheet");
_Static_assert(offsetof(menu_counted_sheet, contents) == 4, "menu_counted_sheet");
_Static_assert(offsetof(menu_counted_sheet, tracks) == 6, "menu_counted_sheet");
_Static_assert(offsetof(menu_counted_sheet, keys) == 8, "menu_counted_sheet");
_Static_assert(offsetof(menu_counted_sheet, textures) == 10, "menu_counted_sheet");
_Static_assert(offsetof(menu_counted_book, refusal) == 0 && offsetof(menu_counted_book, panes) == 2, "menu_counted_book");
_Static_assert(offsetof(menu_counted_book, materials) == 4, "menu_counted_book");
_Static_assert(offsetof(menu_counted_book, channels) == 6, "menu_counted_book");
_Static_assert(offsetof(menu_player, selection) == 0 && offsetof(menu_player, playing) == 2, "menu_player");
_Static_assert(offsetof(menu_player, preview) == 3 && offsetof(menu_player, frame) == 4, "menu_player");
_Static_assert(offsetof(menu_player, reach) == 8 && offsetof(menu_player, redo) == 16, "menu_player");
_Static_assert(offsetof(menu_player, accepted) == 24 && offsetof(menu_player, undone) == 32, "menu_player");
_Static_assert(offsetof(menu_player, redone) == 40 && offsetof(menu_player, standing) == 48, "menu_player");
_Static_assert(offsetof(menu_player, journal) == 56 && offsetof(menu_player, drag) == 3640, "menu_player");
_Static_assert(offsetof(menu_drag_state, open) == 0 && offsetof(menu_drag_state, moved) == 1, "menu_drag_state");
_Static_assert(offsetof(menu_drag_state, track) == 2 && offsetof(menu_drag_state, key) == 4, "menu_drag_state");
_Static_assert(offsetof(menu_drag_state, start_frame) == 8, "menu_drag_state");
_Static_assert(offsetof(menu_drag_state, start_value) == 12, "menu_drag_state");
_Static_assert(offsetof(menu_drag_state, start_slope) == 16, "menu_drag_state");
_Static_assert(offsetof(menu_edited, refusal) == 0 && offsetof(menu_edited, unchanged) == 1, "menu_edited");
_Static_assert(offsetof(menu_edited, player) == 8, "menu_edited");

enum { KEYS = 9, PANES = 2, CHANNELS = PANES * MENU_PANE_CHANNELS + MENU_MATERIAL_CHANNELS, TRACK = 3, KEY = 1, PLACE = 6 };

static uint8_t sheet[31724], book[9604];
static size_t sheet_len, book_len;
static float frames[KEYS], values[KEYS], slopes[KEYS];

#define LENT_KEYS frames, KEYS, values, KEYS, slopes, KEYS
#define LENT sheet, sheet_len, book, book_len, LENT_KEYS

static size_t read_file(const char *name, uint8_t *out, size_t most) {
    FILE *file = fopen(name, "rb");
    if (!file) {
        printf("%s can't be opened\n", name);
        failed = 1;
        return 0;
    }
    size_t n = fread(out, 1, most, file);
    fclose(file);
    return n;
}

/* Cut by a byte, sheet and book are declined, and nothing is counted. */
static void counts(void) {
    menu_counted_sheet s = menu_sheet_counts(sheet, sheet_len);
    CHECK(s.refusal == MENU_OK && s.animations == 2 && s.contents == 4);
    CHECK(s.tracks == 5 && s.keys == KEYS && s.textures == 2);
    s = menu_sheet_counts(sheet, sheet_len - 1);
    CHECK(s.refusal == MENU_SHEET && s.animations == 0 && s.contents == 0);
    CHECK(s.tracks == 0 && s.keys == 0 && s.textures == 0);
    menu_counted_book b = menu_book_counts(book, book_len);
    CHECK(b.refusal == MENU_OK && b.panes == PANES && b.materials == 1 && b.channels == CHANNELS);
    b = menu_book_counts(book, book_len - 1);
    CHECK(b.refusal == MENU_BOOK && b.panes == 0 && b.materials == 0 && b.channels == 0);
}

static menu_player playing(void) {
    menu_played loaded = menu_load(sheet, sheet_len, LENT_KEYS);
    CHECK(loaded.refusal == MENU_OK);
    CHECK(loaded.player.selection == MENU_NONE && !loaded.player.playing && !loaded.player.preview);
    CHECK(frames[PLACE] == 8 && values[PLACE] == 16 && slopes[PLACE] == 0);
    CHECK(menu_load(sheet, sheet_len, frames, KEYS - 1, values, KEYS, slopes, KEYS).refusal == MENU_KEY_LENGTHS);

    uint8_t name[MENU_NAME];
    CHECK(menu_next_name(sheet, sheet_len, 0, name, MENU_NAME) == MENU_OK && memcmp(name, "Idle", 5) == 0);
    CHECK(menu_next_name(sheet, sheet_len, 2, name, MENU_NAME) == MENU_ANIMATION);
    CHECK(menu_next_name(sheet, sheet_len, 0, name, 23) == MENU_OUTPUT_LENGTH);

    menu_played played = menu_play(loaded.player, sheet, sheet_len, 0);
    CHECK(played.refusal == MENU_OK && played.player.playing && played.player.preview);
    CHECK(menu_play(loaded.player, sheet, sheet_len, 2).refusal == MENU_ANIMATION);
    menu_ticked ticked = menu_tick(played.player, sheet, sheet_len, 0.5f, 8);
    CHECK(ticked.refusal == MENU_OK && ticked.answer == MENU_RUNNING && ticked.player.frame == 4);
    CHECK(menu_tick(ticked.player, sheet, sheet_len, NAN, 8).refusal == MENU_NOT_FINITE);
    ticked = menu_tick(ticked.player, sheet, sheet_len, 0.5f, 8);
    CHECK(ticked.answer == MENU_NEXT && ticked.player.frame == 8 && !ticked.player.playing);
    memset(name, 0xA5, MENU_NAME);
    CHECK(menu_next_name(sheet, sheet_len, ticked.player.selection, name, MENU_NAME) == MENU_OK);
    static const uint8_t idle[MENU_NAME] = "Idle";
    CHECK(memcmp(name, idle, MENU_NAME) == 0);

    menu_played posed = menu_pose(ticked.player, sheet, sheet_len, 0, 4);
    CHECK(posed.refusal == MENU_OK && posed.player.frame == 4 && posed.player.selection == 0);
    return posed.player;
}

/* An edit of either kind, both undone, one made again, and undone. */
static void editing(menu_player player) {
    menu_edited edited = menu_slope_edit(player, sheet, sheet_len, LENT_KEYS, TRACK, KEY, 0.5f);
    CHECK(edited.refusal == MENU_OK && !edited.unchanged && slopes[PLACE] == 0.5f);
    edited = menu_key_edit(edited.player, sheet, sheet_len, LENT_KEYS, TRACK, KEY, 6, 20);
    CHECK(edited.refusal == MENU_OK && !edited.unchanged);
    CHECK(frames[PLACE] == 6 && values[PLACE] == 20 && slopes[PLACE] == 0.5f);
    CHECK(edited.player.reach == 2 && edited.player.accepted == 2 && edited.player.standing == 2);
    const menu_journal *j = &edited.player.journal;
    CHECK(j->track[1] == TRACK && j->key[1] == KEY);
    CHECK(j->before_frame[1] == 8 && j->before_value[1] == 16 && j->before_slope[0] == 0);
    CHECK(j->after_frame[1] == 6 && j->after_value[1] == 20 && j->after_slope[0] == 0.5f);
    CHECK(menu_slope_edit(edited.player, sheet, sheet_len, LENT_KEYS, 0, 0, 1).refusal == MENU_NOT_HERMITE);

    menu_played undone = menu_undo(edited.player, sheet, sheet_len, LENT_KEYS);
    CHECK(undone.refusal == MENU_OK && frames[PLACE] == 8 && values[PLACE] == 16 && slopes[PLACE] == 0.5f);
    undone = menu_undo(undone.player, sheet, sheet_len, LENT_KEYS);
    CHECK(undone.player.redo == 2 && undone.player.undone == 2 && slopes[PLACE] == 0);
    CHECK(menu_undo(undone.player, sheet, sheet_len, LENT_KEYS).refusal == MENU_NOTHING_TO_RETURN);
    menu_played redone = menu_redo(undone.player, sheet, sheet_len, LENT_KEYS);
    CHECK(redone.refusal == MENU_OK && slopes[PLACE] == 0.5f && redone.player.redone == 1);
    undone = menu_undo(redone.player, sheet, sheet_len, LENT_KEYS);
    CHECK(undone.player.reach == 0 && undone.player.redo == 2 && undone.player.undone == 3);
    CHECK(undone.player.accepted == 2 && undone.player.redone == 1 && undone.player.standing == 0);
}

static bool same_drag(menu_drag_state a, menu_drag_state b) {
    return a.open == b.open && a.moved == b.moved && a.track == b.track && a.key == b.key &&
           a.start_frame == b.start_frame && a.start_value == b.start_value && a.start_slope == b.start_slope;
}

/* Before the drag a player has no padding. */
static bool same_player(menu_player a, menu_player b) {
    return memcmp(&a, &b, offsetof(menu_player, drag)) == 0 && same_drag(a.drag, b.drag);
}

/* Declined by this number, with the player as it was. */
static bool declined(menu_played answer, menu_player player, uint8_t number) {
    return answer.refusal == number && same_player(answer.player, player);
}

static bool declined_edit(menu_edited answer, menu_player player, uint8_t number) {
    return answer.refusal == number && !answer.unchanged && same_player(answer.player, player);
}

/* Accepted as unchanged, with this player. */
static bool unchanged(menu_edited answer, menu_player player) {
    return answer.refusal == MENU_OK && answer.unchanged && same_player(answer.player, player);
}

/* Edits that leave a key as it is, and drags that end where they began: after them an undone edit is redone. */
static void returning(menu_player player) {
    menu_edited edited = menu_key_edit(player, sheet, sheet_len, LENT_KEYS, TRACK, KEY, 6, 20);
    player = menu_undo(edited.player, sheet, sheet_len, LENT_KEYS).player;
    CHECK(unchanged(menu_key_edit(player, sheet, sheet_len, LENT_KEYS, TRACK, KEY, 8, 16), player));
    CHECK(unchanged(menu_slope_edit(player, sheet, sheet_len, LENT_KEYS, TRACK, KEY, 0), player));
    CHECK(unchanged(menu_key_edit(player, sheet, sheet_len, LENT_KEYS, TRACK, 0, -4, 0), player));
    CHECK(declined_edit(menu_key_edit(player, sheet, sheet_len, LENT_KEYS, TRACK, KEY, NAN, 16), player, MENU_NOT_FINITE));

    menu_player opened = menu_open_drag(player, sheet, sheet_len, LENT_KEYS, TRACK, KEY).player, moved = opened;
    moved.drag.moved = true;
    CHECK(unchanged(menu_drop_drag(opened, sheet, sheet_len, LENT_KEYS), player));
    CHECK(unchanged(menu_drag(opened, sheet, sheet_len, LENT_KEYS, 8, 16), moved));
    edited = menu_drag(opened, sheet, sheet_len, LENT_KEYS, 6, 20);
    CHECK(edited.refusal == MENU_OK && !edited.unchanged && frames[PLACE] == 6 && values[PLACE] == 20);
    edited = menu_drag(edited.player, sheet, sheet_len, LENT_KEYS, 8, 16);
    CHECK(edited.refusal == MENU_OK && !edited.unchanged && frames[PLACE] == 8 && values[PLACE] == 16);
    CHECK(unchanged(menu_drop_drag(edited.player, sheet, sheet_len, LENT_KEYS), player));

    menu_played redone = menu_redo(player, sheet, sheet_len, LENT_KEYS);
    CHECK(redone.refusal == MENU_OK && frames[PLACE] == 6 && values[PLACE] == 20);
    CHECK(menu_undo(redone.player, sheet, sheet_len, LENT_KEYS).refusal == MENU_OK);
}

/* A key that is dragged three times, dropped and undone, then dragged and abandoned; and what is declined while a drag is
 * open and while none is. */
static void dragging(menu_player player) {
    static const menu_drag_state closed = {0};
    CHECK(same_drag(player.drag, closed));
    CHECK(declined_edit(menu_drag(player, sheet, sheet_len, LENT_KEYS, 6, 20), player, MENU_DRAG));
    CHECK(declined_edit(menu_drop_drag(player, sheet, sheet_len, LENT_KEYS), player, MENU_DRAG));
    CHECK(declined(menu_abandon_drag(player, sheet, sheet_len, LENT_KEYS), player, MENU_DRAG));
    CHECK(declined(menu_open_drag(player, sheet, sheet_len, LENT_KEYS, TRACK, 2), player, MENU_NO_SUCH));

    menu_edited sloped = menu_slope_edit(player, sheet, sheet_len, LENT_KEYS, TRACK, KEY, 0.5f);
    menu_played opened = menu_open_drag(sloped.player, sheet, sheet_len, LENT_KEYS, TRACK, KEY);
    menu_drag_state start = {true, false, TRACK, KEY, 8, 16, 0.5f};
    player = opened.player;
    CHECK(opened.refusal == MENU_OK && same_drag(player.drag, start));
    CHECK(declined(menu_open_drag(player, sheet, sheet_len, LENT_KEYS, TRACK, KEY), player, MENU_DRAG));
    CHECK(declined_edit(menu_key_edit(player, sheet, sheet_len, LENT_KEYS, TRACK, KEY, 6, 20), player, MENU_DRAG));
    CHECK(declined_edit(menu_slope_edit(player, sheet, sheet_len, LENT_KEYS, TRACK, KEY, 1), player, MENU_DRAG));
    CHECK(declined(menu_undo(player, sheet, sheet_len, LENT_KEYS), player, MENU_DRAG));
    CHECK(declined(menu_redo(player, sheet, sheet_len, LENT_KEYS), player, MENU_DRAG));
    CHECK(declined_edit(menu_drag(player, sheet, sheet_len, LENT_KEYS, NAN, 0), player, MENU_NOT_FINITE));

    menu_edited dragged;
    for (int n = 1; n <= 3; n++) {
        dragged = menu_drag(player, sheet, sheet_len, LENT_KEYS, 4, (float)(10 * n));
        player = dragged.player;
        CHECK(dragged.refusal == MENU_OK && !dragged.unchanged && player.drag.moved && player.reach == 1);
        CHECK(frames[PLACE] == 4 && values[PLACE] == 10 * n && slopes[PLACE] == 0.5f);
        CHECK(menu_read_pane(player, LENT, 1, MENU_PANE_TRANSLATE_X).number == 10 * n);
    }
    menu_edited dropped = menu_drop_drag(player, sheet, sheet_len, LENT_KEYS);
    CHECK(dropped.refusal == MENU_OK && !dropped.unchanged && values[PLACE] == 30);
    CHECK(same_drag(dropped.player.drag, closed));
    CHECK(dropped.player.reach == 2 && dropped.player.accepted == 2 && dropped.player.standing == 2);
    const menu_journal *j = &dropped.player.journal;
    CHECK(j->track[1] == TRACK && j->key[1] == KEY && j->before_slope[1] == 0.5f && j->after_slope[1] == 0.5f);
    CHECK(j->before_frame[1] == 8 && j->before_value[1] == 16 && j->after_frame[1] == 4 && j->after_value[1] == 30);

    menu_played undone = menu_undo(dropped.player, sheet, sheet_len, LENT_KEYS);
    CHECK(undone.refusal == MENU_OK && frames[PLACE] == 8 && values[PLACE] == 16 && slopes[PLACE] == 0.5f);
    opened = menu_open_drag(undone.player, sheet, sheet_len, LENT_KEYS, TRACK, KEY);
    dragged = menu_drag(opened.player, sheet, sheet_len, LENT_KEYS, 6, 20);
    CHECK(dragged.refusal == MENU_OK && frames[PLACE] == 6 && values[PLACE] == 20);
    menu_played abandoned = menu_abandon_drag(dragged.player, sheet, sheet_len, LENT_KEYS);
    CHECK(abandoned.refusal == MENU_OK && same_drag(abandoned.player.drag, closed));
    CHECK(frames[PLACE] == 8 && values[PLACE] == 16 && slopes[PLACE] == 0.5f);
    CHECK(abandoned.player.reach == 1 && abandoned.player.redo == 1 && abandoned.player.accepted == 2);
    undone = menu_undo(abandoned.player, sheet, sheet_len, LENT_KEYS);
    CHECK(undone.refusal == MENU_OK && slopes[PLACE] == 0);
}

/* The sheet with an edit, loaded again into arrays of its own; and with the edit undone. */
static void saving(menu_player player) {
    static uint8_t saved[sizeof sheet], untouched[sizeof sheet];
    float again[3][KEYS];
    menu_edited edited = menu_key_edit(player, sheet, sheet_len, LENT_KEYS, TRACK, KEY, 6, 20);
    CHECK(menu_save(edited.player, sheet, sheet_len, LENT_KEYS, saved, sheet_len) == MENU_OK);
    CHECK(memcmp(saved, sheet, sheet_len) != 0);
    CHECK(menu_load(saved, sheet_len, again[0], KEYS, again[1], KEYS, again[2], KEYS).refusal == MENU_OK);
    CHECK(again[0][PLACE] == 6 && again[1][PLACE] == 20 && again[2][PLACE] == 0);
    CHECK(memcmp(again[0], frames, sizeof frames) == 0 && memcmp(again[1], values, sizeof values) == 0);
    CHECK(memcmp(again[2], slopes, sizeof slopes) == 0);

    menu_played undone = menu_undo(edited.player, sheet, sheet_len, LENT_KEYS);
    CHECK(menu_save(undone.player, sheet, sheet_len, LENT_KEYS, saved, sheet_len) == MENU_OK);
    CHECK(memcmp(saved, sheet, sheet_len) == 0);

    memset(saved, 0xA5, sizeof saved);
    memset(untouched, 0xA5, sizeof untouched);
    CHECK(menu_save(player, sheet, sheet_len, LENT_KEYS, saved, sheet_len - 1) == MENU_SAVE_LENGTH);
    CHECK(menu_save(player, sheet, sheet_len, LENT_KEYS, saved, sheet_len + 1) == MENU_SAVE_LENGTH);
    player.frame = NAN;
    CHECK(menu_save(player, sheet, sheet_len, LENT_KEYS, saved, 0) == MENU_STATE);
    CHECK(memcmp(saved, untouched, sizeof saved) == 0);
}

static void readings(menu_player player) {
    menu_read_one one = menu_read_pane(player, LENT, 1, MENU_PANE_TRANSLATE_X);
    CHECK(one.refusal == MENU_OK && one.kind == MENU_NUMBER && one.number == 8);
    one = menu_read_pane(player, LENT, 1, MENU_PANE_VISIBLE);
    CHECK(one.kind == MENU_SHOWN && one.number == 1);
    CHECK(menu_read_pane(player, LENT, 1, MENU_PANE_TRANSLATE_Y).kind == MENU_NOTHING);
    CHECK(menu_read_pane(player, LENT, PANES, MENU_PANE_ALPHA).refusal == MENU_NO_SUCH);
    CHECK(menu_read_pane(player, LENT, 1, MENU_PANE_CHANNELS).refusal == MENU_NO_SUCH);
    one = menu_read_material(player, LENT, 0, MENU_MATERIAL_TEXTURE_0);
    CHECK(one.kind == MENU_ROW && one.number == 1);
    one = menu_read_material(player, LENT, 0, MENU_MATERIAL_BLACK_RED);
    CHECK(one.kind == MENU_LEVEL && one.number == 200);
    CHECK(menu_read_material(player, LENT, 0, MENU_MATERIAL_CHANNELS).refusal == MENU_NO_SUCH);

    uint8_t marks[CHANNELS];
    float numbers[CHANNELS];
    CHECK(menu_read_all(player, LENT, marks, CHANNELS, numbers, CHANNELS) == MENU_OK);
    const size_t moved = MENU_PANE_CHANNELS + MENU_PANE_TRANSLATE_X, still = MENU_PANE_CHANNELS + MENU_PANE_TRANSLATE_Y;
    CHECK(marks[moved] == 1 && numbers[moved] == 8 && marks[still] == 0 && numbers[still] == 0);
    CHECK(menu_read_all(player, LENT, marks, CHANNELS, numbers, CHANNELS - 1) == MENU_OUTPUT_LENGTH);

    menu_resolved_pane pane = menu_resolve_pane(player, LENT, 1);
    CHECK(pane.refusal == MENU_OK && pane.visible && pane.alpha == 0.2f);
    CHECK(pane.translation.x == 8 && pane.translation.y == 2 && pane.translation.z == 3);
    CHECK(pane.rotation.x == 4 && pane.rotation.y == 5 && pane.rotation.z == 6);
    CHECK(pane.scale.x == 7 && pane.scale.y == 8 && pane.size.x == 9 && pane.size.y == 10);
    menu_resolved_srt srt = menu_resolve_srt(player, LENT, 0, 1);
    CHECK(srt.refusal == MENU_OK && srt.translate.x == 6 && srt.translate.y == 7 && srt.rotate == 8);
    CHECK(srt.scale.x == 9 && srt.scale.y == 10);

    uint8_t name[MENU_NAME];
    CHECK(menu_texture_name(player, LENT, 0, 0, name, MENU_NAME) == MENU_OK && memcmp(name, "night", 6) == 0);
    CHECK(menu_texture_name(player, LENT, 0, 3, name, MENU_NAME) == MENU_NO_SUCH);
    CHECK(menu_texture_name(player, LENT, 0, 0, name, 23) == MENU_OUTPUT_LENGTH);

    uint8_t visible[PANES];
    float alpha[PANES], influence[PANES];
    CHECK(menu_cascade(player, LENT, visible, PANES, alpha, PANES, influence, PANES) == MENU_OK);
    CHECK(visible[0] == 1 && visible[1] == 1 && alpha[0] == 1 && alpha[1] == 0.2f && influence[1] == 0.2f);
    CHECK(menu_cascade(player, LENT, visible, PANES, alpha, PANES, influence, 1) == MENU_OUTPUT_LENGTH);
}

/* With an edit the edited track's channel and its pane; without one nothing; declined, the outputs stay. */
static void reaching(menu_player player) {
    float old[3][KEYS];
    uint8_t channels[CHANNELS], panes[PANES], none[CHANNELS] = {0};
    memcpy(old[0], frames, sizeof frames);
    memcpy(old[1], values, sizeof values);
    memcpy(old[2], slopes, sizeof slopes);
#define OLD_KEYS old[0], KEYS, old[1], KEYS, old[2], KEYS
#define BEFORE sheet, sheet_len, book, book_len, OLD_KEYS
    memset(channels, 0xA5, sizeof channels);
    CHECK(menu_reach(BEFORE, LENT_KEYS, 0, channels, CHANNELS, panes, PANES) == MENU_OK);
    CHECK(memcmp(channels, none, CHANNELS) == 0 && panes[0] == 0 && panes[1] == 0);

    menu_edited edited = menu_key_edit(player, sheet, sheet_len, LENT_KEYS, TRACK, KEY, 6, 20);
    CHECK(edited.refusal == MENU_OK && menu_reach(BEFORE, LENT_KEYS, 0, channels, CHANNELS, panes, PANES) == MENU_OK);
    const size_t moved = MENU_PANE_CHANNELS + MENU_PANE_TRANSLATE_X;
    CHECK(channels[moved] == 1 && panes[0] == 0 && panes[1] == 1);
    channels[moved] = 0;
    CHECK(memcmp(channels, none, CHANNELS) == 0);
    CHECK(menu_reach(BEFORE, LENT_KEYS, 1, channels, CHANNELS, panes, PANES) == MENU_OK);
    CHECK(memcmp(channels, none, CHANNELS) == 0 && panes[0] == 0 && panes[1] == 0);

    panes[1] = 0xA5;
    CHECK(menu_reach(BEFORE, LENT_KEYS, 2, channels, CHANNELS, panes, PANES) == MENU_ANIMATION);
    CHECK(menu_reach(BEFORE, LENT_KEYS, 0, channels, CHANNELS, panes, 1) == MENU_OUTPUT_LENGTH);
    CHECK(menu_reach(BEFORE, LENT_KEYS, 0, channels, CHANNELS - 1, panes, PANES) == MENU_OUTPUT_LENGTH);
    CHECK(menu_reach(BEFORE, frames, KEYS, values, KEYS, slopes, 1, 0, channels, CHANNELS, panes, PANES) ==
          MENU_KEY_LENGTHS);
    old[1][PLACE] = NAN;
    CHECK(menu_reach(BEFORE, LENT_KEYS, 2, channels, CHANNELS, panes, PANES) == MENU_KEY_RULES);
    CHECK(memcmp(channels, none, CHANNELS) == 0 && panes[0] == 0 && panes[1] == 0xA5);
    CHECK(menu_undo(edited.player, sheet, sheet_len, LENT_KEYS).refusal == MENU_OK);
}

static void shapes(void) {
    menu_vector2 center = {10, 20}, size = {4, 2}, delta = {100, 200};
    menu_vector3 still = {0, 0, 0}, steep = {0, 3601, 0};
    menu_placed placed = menu_corners(center, size, 0, 0, still);
    CHECK(placed.refusal == MENU_OK);
    CHECK(placed.corners.top_left.x == 8 && placed.corners.top_left.y == 19);
    CHECK(placed.corners.top_right.x == 12 && placed.corners.top_right.y == 19);
    CHECK(placed.corners.bottom_left.x == 8 && placed.corners.bottom_left.y == 21);
    CHECK(placed.corners.bottom_right.x == 12 && placed.corners.bottom_right.y == 21);
    CHECK(menu_corners(center, size, 1, 2, still).corners.top_left.y == 18);
    CHECK(menu_corners(center, size, 0, 3, still).refusal == MENU_NO_SUCH);
    CHECK(menu_corners(center, size, 0, 0, steep).refusal == MENU_ANGLE);
    placed = menu_translate(placed.corners, delta);
    CHECK(placed.refusal == MENU_OK && placed.corners.top_left.x == 108 && placed.corners.bottom_right.y == 221);
    menu_turned turned = menu_rotate_point(size, center, still);
    CHECK(turned.refusal == MENU_OK && turned.point.x == 14 && turned.point.y == 22);
    CHECK(menu_rotate_point(size, center, steep).refusal == MENU_ANGLE);

    float square[8] = {0, 0, 1, 0, 0, 1, 1, 1}, srt[5] = {0.25f, 0, 0, 2, 1}, uvs[MENU_UVS];
    CHECK(menu_uvs(square, 8, srt, 5, uvs, MENU_UVS) == MENU_OK && uvs[6] == 1.75f && uvs[7] == 0);
    CHECK(menu_uvs(square, 7, srt, 5, uvs, MENU_UVS) == MENU_NOT_FINITE);
    CHECK(menu_uvs(square, 8, srt, 5, uvs, MENU_UVS - 1) == MENU_OUTPUT_LENGTH);
}

int main(int count, char **arguments) {
    if (count != 3) {
        printf("the sheet and the book are to be named\n");
        return 2;
    }
    sheet_len = read_file(arguments[1], sheet, sizeof sheet);
    book_len = read_file(arguments[2], book, sizeof book);
    counts();
    menu_player player = playing();
    readings(player);
    editing(player);
    returning(player);
    dragging(player);
    saving(player);
    reaching(player);
    shapes();
    return failed;
}
