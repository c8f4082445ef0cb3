// Saves a recording's picture through the read call and reloads it (document 02, [1]). The recording on standard input is drawn; both memories
// are saved, pixel by pixel, and loaded into fresh memories, which must then be those that were drawn. Saved and reloaded where they stand they
// must stay as they are, whatever the planes. Stops at the first difference with status 1.
// usage: reload < RECORDING
#include "feed.h"
#include <stdio.h>
#include <stdlib.h>
#include <string.h>

enum { LIMIT = 8192, PLACES = 8192, ENABLES = 6, DEPTHS = 8 };
enum { PTRN = 0, IMG = 9, PARM = 13, AUX = 14, INIT = 15, HCONTROL = 4, MASK = 10 };

// A card: its record and its memories.
struct card {
    struct dextolumen_registers registers;
    uint16_t im[PLACES], zm[PLACES];
};

// A picture of one memory.
struct saved {
    uint16_t pixel[PLACES];
};

static uint8_t bytes[LIMIT + 1];
static struct card drawn, fresh, was;
static struct saved intensities, depths;

_Noreturn static void stop(const char *what) {
    printf("reload: %s\n", what);
    fflush(stdout);
    exit(1);
}

static void send(struct card *c, uint8_t command, uint16_t data) {
    if (dextolumen_step(&c->registers, command, data, c->im, PLACES, c->zm, PLACES).refusal != DEXTOLUMEN_ACCEPTED) stop("a word is refused");
}

static void set(struct card *c, uint16_t number, uint16_t value) {
    send(c, AUX, number);
    send(c, PARM, value);
}

// Opens the whole picture, from memory or to it.
static void open_all(struct card *c, uint16_t from_memory) {
    unsigned line = c->registers.frame.line;
    send(c, IMG, from_memory);
    send(c, PARM, 0);
    send(c, PARM, 0);
    send(c, PARM, (uint16_t)(line - 1));
    send(c, PARM, (uint16_t)(PLACES / line - 1));
}

static struct dextolumen_seen read_pixel(struct card *c) { return dextolumen_read(&c->registers, c->im, PLACES, c->zm, PLACES); }

// Saves the memory that HCONTROL picks. The region has just as many pixels as the picture.
static void save(struct card *c, struct saved *s) {
    unsigned line = c->registers.frame.line, pixels = PLACES / line * line;
    open_all(c, 1);
    for (unsigned k = 0; k < pixels; k++) {
        struct dextolumen_seen seen = read_pixel(c);
        if (seen.refusal != DEXTOLUMEN_ACCEPTED) stop("a read is refused");
        s->pixel[k] = seen.pixel;
    }
    if (read_pixel(c).refusal != DEXTOLUMEN_NO_REGION) stop("a region that is used up is read");
}

// Loads it into the memory that HCONTROL picks.
static void load(struct card *c, const struct saved *s) {
    unsigned line = c->registers.frame.line, pixels = PLACES / line * line;
    open_all(c, 0);
    for (unsigned k = 0; k < pixels; k++) send(c, PTRN, s->pixel[k]);
}

static void must_be_alike(const struct card *a, const struct card *b, const char *what) {
    if (memcmp(a->im, b->im, sizeof a->im) != 0 || memcmp(a->zm, b->zm, sizeof a->zm) != 0) stop(what);
}

static void begin(struct card *c) {
    c->registers = dextolumen_reset();
    for (size_t at = 0; at < PLACES; at++) c->im[at] = 0, c->zm[at] = 65535;
}

// Both memories of one card, and then of a fresh one.
static void save_and_load(void) {
    set(&drawn, HCONTROL, ENABLES);
    save(&drawn, &intensities);
    set(&drawn, HCONTROL, ENABLES | DEPTHS);
    save(&drawn, &depths);
    send(&fresh, INIT, 0);
    set(&fresh, HCONTROL, ENABLES);
    load(&fresh, &intensities);
    set(&fresh, HCONTROL, ENABLES | DEPTHS);
    load(&fresh, &depths);
}

// Saved and at once reloaded at the same corners, with these planes.
static void reload(uint16_t planes) {
    was = drawn;
    set(&drawn, MASK, planes);
    set(&drawn, HCONTROL, ENABLES);
    save(&drawn, &intensities);
    load(&drawn, &intensities);
    set(&drawn, HCONTROL, ENABLES | DEPTHS);
    save(&drawn, &depths);
    load(&drawn, &depths);
    must_be_alike(&drawn, &was, "a picture saved and reloaded where it stands is another");
}

int main(void) {
    size_t length = fread(bytes, 1, sizeof bytes, stdin), lit = 0;
    if (ferror(stdin) || length > LIMIT) stop("no recording on standard input");
    begin(&drawn);
    begin(&fresh);
    struct dextolumen_ended e = feed(bytes, length, drawn.im, PLACES, drawn.zm, PLACES);
    if (e.refusal != DEXTOLUMEN_ACCEPTED || e.registers.frame.line != 256) stop("a recording of line length 256 that is not refused is asked for");
    drawn.registers = e.registers;
    save_and_load();
    must_be_alike(&fresh, &drawn, "the picture in fresh memories is another");
    for (size_t at = 0; at < PLACES; at++) lit += drawn.im[at] != 0;
    reload(65535);
    reload(0x00F0);
    reload(0);
    printf("reload: %lu words, %lu places lit, saved and reloaded alike\n", (unsigned long)e.index, (unsigned long)lit);
    return fflush(stdout) != 0;
}
