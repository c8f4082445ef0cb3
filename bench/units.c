// The units of boards beside one chip: draws the figures of bench.c's rows with one chip over the whole picture, and with each unit of a board of two
// and of four over its own columns. The units of a board work at the same time, so what counts is a unit's time: that of all of them one after
// the other, divided by their number. Read together their memories must be the chip's, and their counts sum to its count, else the program says so and
// exits with 1. One line a row: what one chip draws in a second, and how many times as fast a unit has its share done.
// usage: units RUNS
#include "figures.h"

// ---- what is drawn

// `size` is a triangle's pixels, or a segment's steps; `mode` is 1 for constant triangles, and a segment's line mode.
typedef struct {
    const char *name;
    int segments;
    unsigned size;
    uint8_t mode;
} Row;

static const Row rows[] = {
    {"gouraud 30", 0, 30, 0},         {"gouraud 100", 0, 100, 0},        {"gouraud 1000", 0, 1000, 0},    {"gouraud 10000", 0, 10000, 0},
    {"constant 1000", 0, 1000, 1},    {"mode 2 lines 100", 1, 100, 2},   {"mode 0 lines 100", 1, 100, 0},
};

// ---- the memories

// The chip's, and those of a board's units, one after the other, which are as many places together.
static uint16_t chip[2][PLACES], units[2][PLACES];

// Chunk h of a row's figures over the memories of a layout. Answers the passed pixels.
static uint64_t part(const Row *row, uint16_t layout, size_t h, uint16_t *im, uint16_t *zm, size_t places) {
    uint64_t count = 0;
    for (size_t k = from(drawn, h); k < from(drawn, h + 1); k++) {
        const Point *c = figures[k];
        count += row->segments ? dextolumen_bench_segment(LINE, layout, row->mode, PATTERN, FOREGROUND, BACKGROUND, OF(c[0]), OF(c[1]), im, places, zm, places)
                               : dextolumen_bench_triangle(LINE, layout, row->mode, OF(c[0]), OF(c[1]), OF(c[2]), im, places, zm, places);
    }
    return count;
}

// What one pass over a row offers to one chip.
static uint64_t offered(const Row *row) {
    uint64_t count = 0;
    if (row->segments) return drawn * ((uint64_t)row->size + 1);
    for (size_t k = 0; k < drawn; k++) {
        const Point *c = figures[k];
        count += plain_offered(LINE, 0, 0, OF(c[0]), OF(c[1]), OF(c[2]), chip[0], PLACES, chip[1], PLACES);
    }
    return count;
}

static void agree(const Row *row, size_t board, uint64_t count, uint64_t expected) {
    size_t unlike = 0;
    for (size_t at = 0; at < PLACES; at++) {
        size_t there = at % board * (PLACES / board) + at / board;
        unlike += units[0][there] != chip[0][at] || units[1][there] != chip[1][at];
    }
    if (count == expected && unlike == 0) return;
    printf("%s: %lu units tell %lu, one chip %lu, and %lu places differ\n", row->name, (unsigned long)board, (unsigned long)count,
           (unsigned long)expected, (unsigned long)unlike);
    exit(1);
}

// ---- the runs

// One chip is a board of one. Its layout is 0, and those of a larger board's units are the board's number and those after it.
enum { LARGEST = 4 };
static uint16_t layout_of(size_t board, size_t u) { return (uint16_t)(board == 1 ? 0 : board + u); }

// The least seconds of each chunk of each layout.
static double least[2 * LARGEST][CHUNKS];

// One pass of all units of a board, one after the other, timed. Clearing and comparing are not. Answers the seconds.
static double pass(const Row *row, size_t board, uint64_t *passed) {
    uint16_t (*memory)[PLACES] = board == 1 ? chip : units;
    const size_t places = PLACES / board;
    double spent = 0;
    uint64_t count = 0;
    memset(memory[0], 0, sizeof memory[0]);
    memset(memory[1], 255, sizeof memory[1]);
    for (size_t u = 0; u < board; u++)
        for (size_t h = 0; h < CHUNKS; h++) {
            uint16_t layout = layout_of(board, u);
            double begun = now();
            count += part(row, layout, h, memory[0] + u * places, memory[1] + u * places, places);
            spent += note(&least[layout][h], now() - begun);
        }
    if (board == 1) *passed = count;
    else agree(row, board, count, *passed);
    return spent;
}

// Seconds of a unit of a board.
static double unit_of(size_t board) {
    double sum = 0;
    for (size_t u = 0; u < board; u++) sum += sum_of(least[layout_of(board, u)]);
    return sum / (double)board;
}

// Passes of the boards by turns, until so many have gained nothing and each board had so many times 30 ms. Answers the passed pixels.
static uint64_t time_by_turns(const Row *row, int runs) {
    uint64_t passed = 0;
    Course course = {0, 0};
    for (size_t layout = 0; layout < 2 * LARGEST; layout++) forget(least[layout]);
    for (; goes_on(&course, runs, 3); course.calm++)
        for (size_t board = 1; board <= LARGEST; board *= 2) {
            double before = unit_of(board), spent = pass(row, board, &passed);
            went(&course, spent, before, unit_of(board));
        }
    return passed;
}

static void measure(const Row *row, int runs) {
    seed = 8512;
    draw_up_figures(row->segments, row->size, 0);
    if (time_by_turns(row, runs) == 0) {
        printf("%s: nothing was drawn\n", row->name);
        exit(1);
    }
    printf("%-19s  one chip %.1f Mpixel/s   a unit of two %.2f times, of four %.2f times as fast\n", row->name,
           (double)offered(row) * 1e-6 / unit_of(1), unit_of(1) / unit_of(2), unit_of(1) / unit_of(4));
    fflush(0);
}

int main(int argc, char **argv) {
    int runs = argc > 1 ? atoi(argv[1]) : 1;
    for (size_t k = 0; k < sizeof rows / sizeof rows[0]; k++) measure(&rows[k], runs);
    return 0;
}
