// A viewer kept current by squares alone: reads a recording from standard input and feeds it to the card word by word. After each word the squares
// that changed are listed and copied into the viewer's picture, and nothing else is. Each time that must make it the card's picture, and the rows
// that the squares overhang must stay as they were. Tells how much was sent; stops at the first fault with status 1.
// usage: viewer < RECORDING
#include <dextolumen.h>
#include <stdio.h>
#include <stdlib.h>
#include <string.h>

enum {
    LIMIT = 8192,  // bytes
    WIDTH = 256,   // the line length of the recording
    ROWS = 29,     // no multiple of 8: the topmost squares overhang the picture
    PLACES = WIDTH * ROWS,
    GUARD = 3 * WIDTH, // what they overhang
    ROOM = 1024,
};

static uint8_t bytes[LIMIT];
static uint32_t words[DEXTOLUMEN_WORDS_HELD(LIMIT)];
static uint16_t im[PLACES], zm[PLACES];
static uint16_t sent[PLACES]; // the card's picture when squares were last listed
static uint16_t view[PLACES + GUARD];
static uint32_t squares[ROOM];

_Noreturn static void fault(const char *what, uint64_t word) {
    printf("viewer: word %lu: %s\n", (unsigned long)word, what);
    fflush(stdout);
    exit(1);
}

// Lists what changed since the last time, and copies it. Answers how many squares that are.
static uint64_t refresh(uint64_t word) {
    uint64_t count = dextolumen_squares(sent, PLACES, im, PLACES, WIDTH, ROWS, squares, ROOM);
    if (count & DEXTOLUMEN_REFUSED) fault("the list is refused", word);
    if (dextolumen_copy_squares(squares, count, im, PLACES, WIDTH, ROWS, view, PLACES) != count) fault("the squares are refused", word);
    if (memcmp(view, im, sizeof im) != 0) fault("the viewer shows another picture", word);
    for (size_t at = PLACES; at < PLACES + GUARD; at++)
        if (view[at] != 0xABCD) fault("a place above the picture changed", word);
    memcpy(sent, im, sizeof im);
    return count;
}

int main(void) {
    size_t length = fread(bytes, 1, sizeof bytes, stdin);
    uint64_t count = dextolumen_unpack(bytes, length, words, sizeof words / sizeof *words), changes = 0, total = 0;
    struct dextolumen_registers registers = dextolumen_reset();
    if (ferror(stdin)) fault("no recording", 0);
    if (count & DEXTOLUMEN_REFUSED) fault(dextolumen_told_text(dextolumen_refusal(count)), 0);
    for (size_t at = 0; at < PLACES; at++) zm[at] = 65535;
    for (size_t at = PLACES; at < PLACES + GUARD; at++) view[at] = 0xABCD;
    for (uint64_t k = 0; k < count; k++) {
        struct dextolumen_told told = dextolumen_step(&registers, (uint8_t)(words[k] >> 16), (uint16_t)words[k], im, PLACES, zm, PLACES);
        if (told.refusal != DEXTOLUMEN_ACCEPTED) fault(dextolumen_told_text(told.refusal), k);
        if (registers.frame.line != WIDTH) fault("another line length", k);
        uint64_t listed = refresh(k);
        if (listed > told.passed) fault("more squares than pixels that passed", k);
        changes += listed != 0;
        total += listed;
    }
    if (changes == 0) fault("nothing was drawn", count);
    printf("viewer: %lu words, %lu of them changed the picture, and %lu squares kept the viewer current\n", (unsigned long)count,
           (unsigned long)changes, (unsigned long)total);
    return fflush(stdout) != 0;
}
