/* Plays an animation and prints for each frame the panes that are shown, each with its alpha. Then edits a key, takes the
 * edit back, and says each time whether a saved sheet has the bytes of the loaded one. Arrays are sized by the library.
 *
 * In the repository's root, after `tools/archives`:
 *
 *     cc -std=c99 -Wall -Wextra -I include examples/c/play.c target/staticlib/libmenu_c.a -lm -o play
 *     ./play samples/title.sheet samples/title.book 0
 *
 * Exit status: 0; 1 where a call is declined; 2 for wrong use, a file that can't be read or written, or no memory.
 */
#include "menu.h"

#include <stdio.h>
#include <stdlib.h>
#include <string.h>

enum {
    TICKS = 100,      /* a looping animation never ends: these are enough to see */
    LONGEST = 1 << 16 /* above any sheet or book, so that a longer file, cut here, is declined for its layout */
};

static const char *const words[] = {
    "none",
    "the sheet breaks its layout",
    "the book breaks its layout",
    "a key array is not as long as the sheet has keys",
    "the keys break the key rules",
    "the player's state is broken, or an undo's or redo's key is not as its entry says",
    "no such animation, or nothing is active",
    "no such track in the active animation, key, channel, pane, material, layer or origin",
    "a number is not finite, or UV layers or SRTs are not whole entries",
    "the clamped frame is above the next key's",
    "the curve is not Hermite",
    "nothing to undo, or to redo",
    "an angle above 3,600 degrees",
    "an output is not exactly as long as it must be",
    "the buffer is not as long as the sheet",
    "a drag is open, or none is",
};

struct file {
    const char *name;
    uint8_t bytes[LONGEST];
    size_t len;
};

static struct file sheet, book;
static size_t keys, panes;
static float *frames, *values, *slopes, *alpha, *influence;
static uint8_t *visible, *saved;

/* What most calls take, as they take it. */
#define SHEET sheet.bytes, sheet.len
#define BOOK book.bytes, book.len
#define KEYS frames, keys, values, keys, slopes, keys

static void stop(const char *file, const char *why) {
    fprintf(stderr, "%s: %s\n", file, why);
    exit(2);
}

/* Ends the program where a call was declined, with the file that it is about: refusal 2 is the book's. */
static void accept_or_stop(uint8_t refusal) {
    if (refusal != MENU_OK) {
        const char *file = refusal == MENU_BOOK ? book.name : sheet.name;
        fprintf(stderr, "%s: refusal %d: %s\n", file, refusal, words[refusal]);
        exit(1);
    }
}

static void read_file(struct file *into, const char *name) {
    FILE *file = fopen(name, "rb");
    if (file == NULL)
        stop(name, "can't be opened");
    into->name = name;
    into->len = fread(into->bytes, 1, LONGEST, file);
    if (ferror(file))
        stop(name, "can't be read");
    fclose(file);
}

/* Never NULL, also for none; kept until the program ends. */
static void *array(size_t count, size_t size) {
    void *made = calloc(count + 1, size);
    if (made == NULL)
        stop("memory", "there is not enough");
    return made;
}

/* Counts what both files hold, makes the arrays as long, and loads the sheet. */
static menu_player load(uint16_t *tracks) {
    menu_counted_sheet in_sheet = menu_sheet_counts(SHEET);
    accept_or_stop(in_sheet.refusal);
    menu_counted_book in_book = menu_book_counts(BOOK);
    accept_or_stop(in_book.refusal);
    *tracks = in_sheet.tracks;
    keys = in_sheet.keys;
    panes = in_book.panes;
    frames = array(keys, sizeof(float));
    values = array(keys, sizeof(float));
    slopes = array(keys, sizeof(float));
    visible = array(panes, 1);
    alpha = array(panes, sizeof(float));
    influence = array(panes, sizeof(float));
    saved = array(sheet.len, 1);
    menu_played loaded = menu_load(SHEET, KEYS);
    accept_or_stop(loaded.refusal);
    return loaded.player;
}

static void show(menu_player player) {
    accept_or_stop(menu_cascade(player, SHEET, BOOK, KEYS, visible, panes, alpha, panes, influence, panes));
    printf("frame %.9g\n", player.frame);
    for (size_t p = 0; p < panes; p++)
        if (visible[p])
            printf("    pane %zu alpha %.9g\n", p, alpha[p]);
}

/* To the animation's end, a frame a tick. */
static menu_player play(menu_player player, uint16_t animation) {
    menu_played played = menu_play(player, SHEET, animation);
    accept_or_stop(played.refusal);
    show(played.player);
    menu_ticked ticked = {MENU_OK, MENU_RUNNING, played.player};
    for (int n = 0; n < TICKS && ticked.answer == MENU_RUNNING; n++) {
        ticked = menu_tick(ticked.player, SHEET, 1.0f / 60, 60);
        accept_or_stop(ticked.refusal);
        show(ticked.player);
    }
    return ticked.player;
}

static void save(menu_player player, const char *when) {
    accept_or_stop(menu_save(player, SHEET, KEYS, saved, sheet.len));
    printf("saved %s: %s\n", when, memcmp(saved, sheet.bytes, sheet.len) == 0 ? "the same bytes" : "other bytes");
}

/* Moves key 0 of the first track that is the active animation's and that this changes, and takes it back. */
static void edit(menu_player player, uint16_t tracks) {
    for (uint16_t track = 0; track < tracks; track++) {
        menu_edited edited = menu_key_edit(player, SHEET, KEYS, track, 0, 1, 2);
        if (edited.refusal == MENU_NO_SUCH || edited.unchanged)
            continue;
        accept_or_stop(edited.refusal);
        printf("edited key 0 of track %d\n", track);
        save(edited.player, "with the edit");
        menu_played undone = menu_undo(edited.player, SHEET, KEYS);
        accept_or_stop(undone.refusal);
        save(undone.player, "after its undo");
        return;
    }
    printf("no key to edit\n");
}

int main(int count, char **arguments) {
    char *end = NULL;
    unsigned long animation = count == 4 ? strtoul(arguments[3], &end, 10) : 0;
    if (count != 4 || end == arguments[3] || *end != '\0' || animation > UINT16_MAX) {
        fprintf(stderr, "usage: play SHEET BOOK ANIMATION\n");
        return 2;
    }
    read_file(&sheet, arguments[1]);
    read_file(&book, arguments[2]);
    uint16_t tracks;
    menu_player player = load(&tracks);
    edit(play(player, (uint16_t)animation), tracks);
    if (fflush(stdout) != 0)
        stop("standard output", "can't be written");
    return 0;
}
