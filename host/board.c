// Draws a recording on one chip and on boards of one, two and four units, word by word and in one call: each word gets the same answer, the board's
// registers are the chip's, and the units' memories, read together, are the chip's, place p being place p / N of unit p % N. The board's INIT has
// its chips code where the chip's has 0. The recording has no commands 0 and 9, which boards of several units refuse. Prints a line; stops at the
// first fault with status 1.
// usage: board < RECORDING
#include "units.h"
#include <stdio.h>
#include <stdlib.h>
#include <string.h>

enum { LIMIT = 8192, WORDS = DEXTOLUMEN_WORDS_HELD(LIMIT), PLACES = 8192 };

struct pair {
    uint16_t i[PLACES], z[PLACES];
};

static uint32_t words[WORDS];
static struct pair chip, unit[UNITS];

_Noreturn static void fault(const char *what, unsigned units, uint64_t at) {
    fprintf(stderr, "board: %s, on %u units, at %lu\n", what, units, (unsigned long)at);
    exit(1);
}

static void fresh(struct pair *p) {
    for (size_t at = 0; at < PLACES; at++) p->i[at] = 0, p->z[at] = 65535;
}

// Fresh memories for so many units, together as large as the chip's; the others are not lent at all.
static struct lent begin(unsigned units) {
    struct lent m;
    for (unsigned u = 0; u < UNITS; u++) {
        fresh(&unit[u]);
        m.i[u] = unit[u].i, m.z[u] = unit[u].z;
        m.i_length[u] = m.z_length[u] = u < units ? PLACES / units : 0;
    }
    return m;
}

static uint32_t for_board(unsigned units, uint32_t word) { return word >> 16 == 15 ? word | (uint32_t)chips_code(units) << 6 : word; }

// Whether the units show the chip's picture. Counts the lit pixels of the unit that has fewest.
static int read_together(unsigned units, size_t *fewest) {
    size_t lit[UNITS] = {0};
    for (size_t at = 0; at < PLACES; at++) {
        if (unit[at % units].i[at / units] != chip.i[at] || unit[at % units].z[at / units] != chip.z[at]) return 0;
        lit[at % units] += chip.i[at] != 0;
    }
    for (unsigned u = 0; u < units; u++)
        if (u == 0 || lit[u] < *fewest) *fewest = lit[u];
    return 1;
}

// The recording word by word, on the chip and on the board. Answers how many pixels passed.
static uint64_t word_by_word(unsigned units, uint64_t count, struct dextolumen_board *left) {
    struct lent m = begin(units);
    struct dextolumen_registers registers = dextolumen_reset();
    struct dextolumen_board_started started = dextolumen_board_reset(units);
    struct dextolumen_board board = started.board;
    uint64_t sum = 0;
    if (started.refusal != DEXTOLUMEN_ACCEPTED) fault("no board", units, 0);
    fresh(&chip);
    for (uint64_t k = 0; k < count; k++) {
        uint32_t word = for_board(units, words[k]);
        struct dextolumen_told one = dextolumen_step(&registers, (uint8_t)(words[k] >> 16), (uint16_t)words[k], chip.i, PLACES, chip.z, PLACES);
        struct dextolumen_board_reply two = board_step(board, (uint8_t)(word >> 16), (uint16_t)word, &m);
        board = two.board;
        if (one.refusal != DEXTOLUMEN_ACCEPTED) fault("a word is refused", units, k);
        if (one.refusal != two.refusal || one.passed != two.passed) fault("a word is answered otherwise", units, k);
        if (board.units != units || memcmp(&board.registers, &registers, sizeof registers) != 0) fault("other registers than the chip's", units, k);
        sum += two.passed;
    }
    *left = board;
    return sum;
}

// The recording in one call ends as it does word by word.
static void in_one_call(unsigned units, uint64_t count, uint64_t sum, const struct dextolumen_board *left) {
    static uint32_t translated[WORDS];
    static uint8_t bytes[LIMIT];
    struct lent m = begin(units);
    for (uint64_t k = 0; k < count; k++) translated[k] = for_board(units, words[k]);
    uint64_t length = dextolumen_pack(translated, count, bytes, sizeof bytes);
    struct dextolumen_board_ended e = board_run(units, bytes, length, &m);
    if (e.refusal != DEXTOLUMEN_ACCEPTED || e.index != count || e.sum != sum) fault("one call tells otherwise", units, e.index);
    if (memcmp(&e.board, left, sizeof e.board) != 0) fault("one call leaves another board", units, e.index);
}

int main(void) {
    static const unsigned sizes[] = {1, 2, 4};
    static uint8_t bytes[LIMIT];
    size_t length = fread(bytes, 1, sizeof bytes, stdin), fewest = 0;
    uint64_t count = dextolumen_unpack(bytes, length, words, WORDS), sum = 0;
    if (ferror(stdin) || count & DEXTOLUMEN_REFUSED) fault("no recording", 0, length);
    for (unsigned k = 0; k < sizeof sizes / sizeof *sizes; k++) {
        struct dextolumen_board left;
        sum = word_by_word(sizes[k], count, &left);
        if (!read_together(sizes[k], &fewest)) fault("another picture", sizes[k], count);
        in_one_call(sizes[k], count, sum, &left);
        if (!read_together(sizes[k], &fewest)) fault("another picture in one call", sizes[k], count);
    }
    if (fewest == 0) fault("a unit has nothing drawn", UNITS, count);
    printf("board: %lu words, %lu passed: on 1, 2 and 4 units the picture is one chip's; of four each has %lu lit pixels or more\n",
           (unsigned long)count, (unsigned long)sum, (unsigned long)fewest);
    return fflush(stdout) != 0;
}
