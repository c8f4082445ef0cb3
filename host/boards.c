// Calls on a board as text, for comparing with the second program. A line of standard input is
//     board N      reset with so many units
//     lend A .. H  from now on so many places are lent of I and Z of the first unit, of the second, and so on
//     F0000        a word of five hexadecimal digits, or of six where the command is above 15
//     read
//     run N BYTES  a packed stream, which may be empty, in one call, on so many units
//     end
// A reset prints `board` and its refusal, a word its refusal and its count, a read `read`, its refusal and the pixel, a run `run`, its refusal,
// index and sum; a reset or a run that is refused for its N leaves the board that stands. `end` prints a checksum of each pair of memories, whole,
// also of those that the board has no unit for; what follows is over memories as they were at the start, all lent, with a board of one.
// usage: boards < TEXT
#include "units.h"
#include <stdio.h>
#include <string.h>

enum { PLACES = 8192, LIMIT = 8192 };

static struct dextolumen_board board;
static uint16_t im[UNITS][PLACES], zm[UNITS][PLACES];
static struct lent lent;

// Another I at each place, and depths that are nearly the farthest.
static void begin(void) {
    board = dextolumen_board_reset(1).board;
    for (unsigned u = 0; u < UNITS; u++) {
        lent.i[u] = im[u], lent.z[u] = zm[u];
        lent.i_length[u] = lent.z_length[u] = PLACES;
        for (unsigned at = 0; at < PLACES; at++) {
            im[u][at] = (uint16_t)(73 * at + 19 * u);
            zm[u][at] = (uint16_t)(65535 - (5 * at + 3 * u) % 8);
        }
    }
}

// FNV-1a of 64 bits, over numbers with the more significant byte first.
static uint64_t checksum(uint64_t sum, const uint16_t *numbers) {
    for (size_t at = 0; at < PLACES; at++) {
        sum = (sum ^ numbers[at] >> 8) * UINT64_C(0x100000001b3);
        sum = (sum ^ (numbers[at] & 255)) * UINT64_C(0x100000001b3);
    }
    return sum;
}

static void end(void) {
    for (unsigned u = 0; u < UNITS; u++) printf("unit %u %016lx\n", u, (unsigned long)checksum(checksum(UINT64_C(0xcbf29ce484222325), im[u]), zm[u]));
    begin();
}

static void reset(uint64_t units) {
    struct dextolumen_board_started started = dextolumen_board_reset(units);
    if (started.refusal == DEXTOLUMEN_ACCEPTED) board = started.board;
    printf("board %lu\n", (unsigned long)started.refusal);
}

static void take(uint32_t word) {
    struct dextolumen_board_reply reply = board_step(board, (uint8_t)(word >> 16), (uint16_t)word, &lent);
    board = reply.board;
    printf("%lu %lu\n", (unsigned long)reply.refusal, (unsigned long)reply.passed);
}

static void read_pixel(void) {
    struct dextolumen_board_seen seen = board_read(board, &lent);
    board = seen.board;
    printf("read %lu %u\n", (unsigned long)seen.refusal, seen.pixel);
}

static void run(uint64_t units, const uint8_t *bytes, size_t length) {
    struct dextolumen_board_ended ended = board_run(units, bytes, length, &lent);
    if (dextolumen_board_reset(units).refusal == DEXTOLUMEN_ACCEPTED) board = ended.board;
    printf("run %lu %lu %lu\n", (unsigned long)ended.refusal, (unsigned long)ended.index, (unsigned long)ended.sum);
}

// ---- lines

// The value of a hexadecimal digit, or 16.
static uint32_t digit(char c) {
    return c >= '0' && c <= '9' ? (uint32_t)(c - '0') : c >= 'A' && c <= 'F' ? (uint32_t)(c - 'A' + 10) : 16;
}

// Reads a decimal number behind a blank, and goes past it; tells whether there is one.
static int number(const char **at, uint64_t *n) {
    if (**at != ' ' || digit((*at)[1]) > 9) return 0;
    for (*n = 0, ++*at; digit(**at) < 10; ++*at) *n = *n * 10 + digit(**at);
    return 1;
}

static int take_lend(const char *at) {
    uint64_t n;
    for (unsigned k = 0; k < 2 * UNITS; k++) {
        if (!number(&at, &n) || n > PLACES) return 0;
        (k % 2 ? lent.z_length : lent.i_length)[k / 2] = n;
    }
    return *at == 0;
}

static int take_run(const char *at) {
    static uint8_t bytes[LIMIT];
    uint64_t units;
    size_t length = 0;
    if (!number(&at, &units)) return 0;
    if (*at == ' ') at++;
    for (; at[0] != 0; at += 2) {
        if (length == LIMIT || digit(at[0]) > 15 || digit(at[1]) > 15) return 0;
        bytes[length++] = (uint8_t)(digit(at[0]) << 4 | digit(at[1]));
    }
    run(units, bytes, length);
    return 1;
}

static int take_word(const char *at) {
    uint32_t word = 0;
    size_t length = strlen(at);
    if (length != 5 && length != 6) return 0;
    for (size_t k = 0; k < length; k++) {
        if (digit(at[k]) > 15) return 0;
        word = word << 4 | digit(at[k]);
    }
    take(word);
    return 1;
}

// Takes a line without its end; tells whether it was one.
static int take_line(const char *line) {
    uint64_t units;
    if (memcmp(line, "board ", 6) == 0) {
        const char *at = line + 5;
        if (!number(&at, &units) || *at != 0) return 0;
        reset(units);
        return 1;
    }
    if (memcmp(line, "lend ", 5) == 0) return take_lend(line + 4);
    if (memcmp(line, "run ", 4) == 0) return take_run(line + 3);
    if (strcmp(line, "read") == 0) {
        read_pixel();
        return 1;
    }
    if (strcmp(line, "end") == 0) {
        end();
        return 1;
    }
    return take_word(line);
}

int main(void) {
    static char line[2 * LIMIT + 64];
    size_t length = 0;
    unsigned long at = 1;
    begin();
    for (int c = getchar(); c != EOF; c = getchar()) {
        if (c != '\n') {
            if (length < sizeof line - 1) line[length++] = (char)c;
            continue;
        }
        line[length] = 0;
        if (!take_line(line)) {
            fprintf(stderr, "boards: line %lu is no call\n", at);
            return 1;
        }
        length = 0;
        at++;
    }
    if (length != 0 || ferror(stdin) || fflush(stdout) != 0) {
        fprintf(stderr, "boards: standard input or output\n");
        return 1;
    }
    return 0;
}
