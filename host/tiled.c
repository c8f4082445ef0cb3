// Draws a recording over rows and over tiles, in one call and word by word: each word gets the same answer over either, and each pixel ends with
// the same two numbers, found through its places. The recording keeps one line length. Prints a line; stops at the first fault with status 1.
// usage: tiled < RECORDING
#include "feed.h"
#include "tiles.h"
#include <stdio.h>
#include <string.h>

enum { LIMIT = 8192, PLACES = 8192 };

static uint8_t bytes[LIMIT];

// A card: its record and its two memories.
struct card {
    struct dextolumen_registers record;
    uint16_t im[PLACES], zm[PLACES];
};

static struct card rows, tiles, rows_whole, tiles_whole;

static void begin(struct card *c, struct dextolumen_registers record) {
    c->record = record;
    for (size_t at = 0; at < PLACES; at++) c->im[at] = 0, c->zm[at] = 65535;
}

static struct dextolumen_told take(struct card *c, uint64_t word) {
    return dextolumen_step(&c->record, (uint8_t)(word >> 16), (uint16_t)word, c->im, PLACES, c->zm, PLACES);
}

static int fault(const char *what, uint64_t at) {
    fprintf(stderr, "tiled: %s, at %lu\n", what, (unsigned long)at);
    return 1;
}

// Whether the two kinds show the same picture. Counts its pixels, and those at another place in tiles.
static int same_picture(const struct card *a, const struct card *b, size_t *pixels, size_t *moved) {
    size_t line = a->record.frame.line, height = rows_in_use(&a->record.frame, PLACES);
    if (b->record.frame.line != line || rows_in_use(&b->record.frame, PLACES) != height) return 0;
    for (size_t y = 0; y < height; y++)
        for (size_t x = 0; x < line; x++) {
            size_t p = place(&a->record.frame, x, y), q = place(&b->record.frame, x, y);
            if (a->im[p] != b->im[q] || a->zm[p] != b->zm[q]) return 0;
            *pixels += a->im[p] != 0;
            *moved += a->im[p] != 0 && p != q;
        }
    return 1;
}

// Whether a card drawn in one call is as it is word by word.
static int same_card(const struct card *a, const struct dextolumen_ended *e, const struct card *b) {
    return memcmp(&a->record, &e->registers, sizeof a->record) == 0 && memcmp(a->im, b->im, sizeof a->im) == 0
        && memcmp(a->zm, b->zm, sizeof a->zm) == 0;
}

int main(void) {
    size_t length = fread(bytes, 1, sizeof bytes, stdin), pixels = 0, moved = 0;
    uint64_t count = dextolumen_word_count(bytes, length), sum = 0;
    if (ferror(stdin) || count & DEXTOLUMEN_REFUSED) return fault("no recording", length);
    begin(&rows, dextolumen_reset());
    begin(&tiles, dextolumen_reset_tiled());
    for (uint64_t k = 0; k < count; k++) {
        uint64_t word = dextolumen_word_at(bytes, length, k);
        struct dextolumen_told one = take(&rows, word), two = take(&tiles, word);
        if (one.refusal != two.refusal || one.passed != two.passed) return fault("a word is answered otherwise over tiles", k);
        if (one.refusal != DEXTOLUMEN_ACCEPTED) return fault("a word is refused", k);
        if (rows.record.frame.layout != 0 || tiles.record.frame.layout != 1) return fault("a word changed the kind", k);
        sum += one.passed;
    }
    if (!same_picture(&rows, &tiles, &pixels, &moved)) return fault("another picture over tiles", count);
    if (pixels == 0 || moved == 0) return fault("nothing was drawn that tiles could move", pixels);
    begin(&rows_whole, dextolumen_reset());
    begin(&tiles_whole, dextolumen_reset_tiled());
    struct dextolumen_ended one = dextolumen_run(bytes, length, rows_whole.im, PLACES, rows_whole.zm, PLACES);
    struct dextolumen_ended two = dextolumen_run_tiled(bytes, length, tiles_whole.im, PLACES, tiles_whole.zm, PLACES);
    if (one.index != two.index || one.sum != two.sum || one.sum != sum || one.refusal != two.refusal) return fault("one call tells otherwise", two.index);
    if (!same_card(&rows, &one, &rows_whole) || !same_card(&tiles, &two, &tiles_whole)) return fault("one call leaves otherwise", two.index);
    printf("tiled: %lu words, %lu passed: %lu lit pixels are the same over tiles, %lu of them at other places\n", (unsigned long)count, (unsigned long)sum,
        (unsigned long)pixels, (unsigned long)moved);
    return fflush(stdout) != 0;
}
