// The driver: draws the same pseudo-random figures, packs and unpacks the same stream, and lists the squares of the same pictures, with the
// proved code and with two implementations in C, by turns. Every pass starts from the same memories and must leave the same ones and tell the
// same counts, else the program says so and exits with 1. One line a row: the rate of each, and ours over the better C. In the rows over
// tiles the C draws over rows, and what ours leaves is laid out in rows before it is compared. Triangles over rows have a third in C beside them,
// written in vectors: its rate is told, and the ratio is without it. Last come recordings, which the proved code alone runs: words a second.
// usage: bench RUNS
#include "figures.h"
#include "dextolumen.h"

int memcmp(const void *, const void *, size_t);
void *memcpy(void *, const void *, size_t);

// ---- the sides

enum { OURS, PLAIN, SPAN, VECTOR, SIDES };

typedef struct {
    const char *name;
    TriangleCall *triangle;
    SegmentCall *segment;
    PackCall *pack;
    UnpackCall *unpack;
    SquaresCall *squares;
} Side;

static const Side sides[SIDES] = {
    {"ours", dextolumen_bench_triangle, dextolumen_bench_segment, dextolumen_bench_pack, dextolumen_bench_unpack, dextolumen_squares},
    {"plain", plain_triangle, plain_segment, plain_pack, plain_unpack, plain_squares},
    {"span", span_triangle, span_segment, span_pack, span_unpack, span_squares},
    {"vector", vector_triangle, 0, 0, 0, 0},
};

// ---- the rows

typedef enum { TRIANGLES, SEGMENTS, PACK, UNPACK, SQUARES } Kind;

// `size` is a triangle's pixels or a segment's steps, 0 for odd figures: tiny ones, many across the picture's far borders, some
// without an inside. `mode` is 1 for constant triangles, and a segment's line mode. For squares, `size` is the pictures' width and rows (0 for
// odd ones, which the squares overhang), and one place in 2 to the power of `mode` differs. A clipped segment's box hangs over the picture's far
// border.
typedef struct {
    const char *name;
    Kind kind;
    int size;
    uint8_t mode;
    uint16_t layout;
    int clipped;
} Row;

enum { ROWS, TILES };

static const Row timed[] = {
    {"gouraud 30", TRIANGLES, 30, 0, ROWS, 0},
    {"gouraud 100", TRIANGLES, 100, 0, ROWS, 0},
    {"gouraud 1000", TRIANGLES, 1000, 0, ROWS, 0},
    {"gouraud 10000", TRIANGLES, 10000, 0, ROWS, 0},
    {"constant 1000", TRIANGLES, 1000, 1, ROWS, 0},
    {"mode 2 lines 100", SEGMENTS, 100, 2, ROWS, 0},
    {"mode 0 lines 100", SEGMENTS, 100, 0, ROWS, 0},
    {"mode 2 clipped", SEGMENTS, 100, 2, ROWS, 1},
    {"mode 0 clipped", SEGMENTS, 100, 0, ROWS, 1},
    {"tiled gouraud 100", TRIANGLES, 100, 0, TILES, 0},
    {"tiled gouraud 1000", TRIANGLES, 1000, 0, TILES, 0},
    {"tiled gouraud 10000", TRIANGLES, 10000, 0, TILES, 0},
    {"tiled constant 1000", TRIANGLES, 1000, 1, TILES, 0},
    {"tiled mode 2 100", SEGMENTS, 100, 2, TILES, 0},
    {"tiled mode 0 100", SEGMENTS, 100, 0, TILES, 0},
    {"pack 1 MiB", PACK, 0, 0, ROWS, 0},
    {"unpack 1 MiB", UNPACK, 0, 0, ROWS, 0},
    {"squares few", SQUARES, 256, 12, ROWS, 0},
    {"squares many", SQUARES, 256, 6, ROWS, 0},
};

// Vectors are for triangles over rows alone.
static int takes_part(const Row *row, int s) { return s != VECTOR || (row->kind == TRIANGLES && row->layout == ROWS); }

// Odd figures take no time worth telling, but the sides must agree on them too.
static const Row odd[] = {
    {"odd gouraud", TRIANGLES, 0, 0, ROWS, 0},
    {"odd constant", TRIANGLES, 0, 1, ROWS, 0},
    {"odd mode 0 lines", SEGMENTS, 0, 0, ROWS, 0},
    {"odd mode 1 lines", SEGMENTS, 0, 1, ROWS, 0},
    {"odd mode 2 lines", SEGMENTS, 0, 2, ROWS, 0},
    {"odd tiled gouraud", TRIANGLES, 0, 0, TILES, 0},
    {"odd tiled constant", TRIANGLES, 0, 1, TILES, 0},
    {"odd tiled mode 1", SEGMENTS, 0, 1, TILES, 0},
    {"odd tiled mode 2", SEGMENTS, 0, 2, TILES, 0},
    {"odd squares", SQUARES, 0, 8, ROWS, 0},
};

// ---- what is drawn

enum {
    ODD = 50000,
    BYTES = 1048575, // a packed stream of 1 MiB would hold no whole number of words, so it has a byte less
    WORDS = BYTES / 5 * 2,
};

static uint32_t words[WORDS];
static uint8_t bytes[BYTES];

// Pictures of 256 by 256 places, before and after. A row of squares lists each of them so often.
enum { SIDE = 256, PICTURES = PLACES / (SIDE * SIDE), TIMES = 16 };
static uint16_t before[PICTURES][SIDE * SIDE], after[PICTURES][SIDE * SIDE];

static void draw_up_odd(Point *corner) {
    unsigned side = 2 + any(14), x = any(2) ? any(LINE) : LINE - any(2 * side), y = any(2) ? any(LINE) : LINE - any(2 * side);
    for (int k = 0; k < 3; k++) corner[k] = point(x + any(side), y + any(side));
}

static void draw_up_stream(void) {
    for (size_t k = 0; k < WORDS; k++) words[k] = any(1048576);
    plain_pack(words, WORDS, bytes, BYTES);
}

static void draw_up_pictures(unsigned power) {
    for (size_t k = 0; k < PICTURES; k++)
        for (size_t at = 0; at < SIDE * SIDE; at++) {
            before[k][at] = (uint16_t)any(65536);
            after[k][at] = before[k][at] ^ (any(1u << power) == 0);
        }
}

// Makes a row's figures, the same on every machine.
static void draw_up(const Row *row) {
    seed = 8512;
    if (row->kind == PACK || row->kind == UNPACK) {
        draw_up_stream();
        return;
    }
    if (row->kind == SQUARES) {
        draw_up_pictures(row->mode);
        return;
    }
    if (row->size != 0) {
        draw_up_figures(row->kind == SEGMENTS, (unsigned)row->size, row->clipped);
        return;
    }
    drawn = ODD;
    for (size_t k = 0; k < drawn; k++) draw_up_odd(figures[k]);
}

// ---- the memories

// What a run writes, and what the first run wrote. The codec's output lies in the picture's memory: whatever a side writes, one comparison
// sees it, and what it must leave alone too.
static union Memory {
    uint16_t picture[2][PLACES];
    uint8_t packed[4 * PLACES];
    uint32_t unpacked[PLACES];
} memory, wanted;

static void clear(void) {
    memset(memory.picture[0], 0, sizeof memory.picture[0]);
    memset(memory.picture[1], 255, sizeof memory.picture[1]);
}

#define LENT memory.picture[0], PLACES, memory.picture[1], PLACES

static uint64_t triangles(TriangleCall *call, uint16_t layout, uint8_t constant, size_t h) {
    uint64_t count = 0;
    for (size_t k = from(drawn, h); k < from(drawn, h + 1); k++) {
        const Point *c = figures[k];
        count += call(LINE, layout, constant, OF(c[0]), OF(c[1]), OF(c[2]), LENT);
    }
    return count;
}

static uint64_t segments(SegmentCall *call, uint16_t layout, uint8_t mode, size_t h) {
    uint64_t count = 0;
    for (size_t k = from(drawn, h); k < from(drawn, h + 1); k++) {
        const Point *c = figures[k];
        count += call(LINE, layout, mode, PATTERN, FOREGROUND, BACKGROUND, OF(c[0]), OF(c[1]), LENT);
    }
    return count;
}

// Each list has a room of its own. Odd pictures are cut off a little more from one to the next.
static uint64_t squares(SquaresCall *call, int odd, size_t h) {
    uint64_t count = 0;
    for (size_t k = from(TIMES * PICTURES, h); k < from(TIMES * PICTURES, h + 1); k++) {
        size_t one = k % PICTURES, side = odd ? SIDE - 1 - one : SIDE, places = side * (odd ? side / 2 : side);
        count += call(before[one], places, after[one], places, side, places / side, memory.unpacked + 1024 * one, 1024);
    }
    return count;
}

// One side does chunk h of a row: the codec is one call, and so one chunk. Answers the passed pixels, the length written, or the
// squares listed.
static uint64_t part(const Row *row, const Side *side, size_t h) {
    switch (row->kind) {
    case TRIANGLES: return triangles(side->triangle, row->layout, row->mode, h);
    case SEGMENTS: return segments(side->segment, row->layout, row->mode, h);
    case PACK: return h == 0 ? side->pack(words, WORDS, memory.packed, sizeof memory.packed) : 0;
    case UNPACK: return h == 0 ? side->unpack(bytes, BYTES, memory.unpacked, PLACES) : 0;
    case SQUARES: return squares(side->squares, row->size == 0, h);
    }
    return 0;
}

static uint64_t once(const Row *row, const Side *side) {
    uint64_t count = 0;
    for (size_t h = 0; h < CHUNKS; h++) count += part(row, side, h);
    return count;
}

static uint64_t offered(void) {
    uint64_t count = 0;
    for (size_t h = 0; h < CHUNKS; h++) count += triangles(plain_offered, ROWS, 0, h);
    return count;
}

// What one pass over a row is worth: its offered pixels, the pixels of its pictures, or the bytes of the packed stream.
static uint64_t worth(const Row *row) {
    switch (row->kind) {
    case TRIANGLES: return offered();
    case SEGMENTS: return drawn * ((uint64_t)row->size + 1);
    case SQUARES: return (uint64_t)TIMES * PLACES;
    default: return BYTES;
    }
}

// ---- the runs

// Lays a picture out in rows that lies in tiles of four by four.
static void straighten(uint16_t *picture) {
    static uint16_t tiled[PLACES];
    memcpy(tiled, picture, sizeof tiled);
    for (size_t y = 0; y < LINE; y++)
        for (size_t x = 0; x < LINE; x++) picture[y * LINE + x] = tiled[(y / 4 * (LINE / 4) + x / 4) * 16 + y % 4 * 4 + x % 4];
}

static void agree(const Row *row, const Side *side, uint64_t count, uint64_t expected) {
    if (row->layout == TILES && side == &sides[OURS])
        for (int k = 0; k < 2; k++) straighten(memory.picture[k]);
    int alike = memcmp(&memory, &wanted, sizeof memory) == 0;
    if (count == expected && alike) return;
    printf("%s: %s tells %lu, plain %lu, and the memories %s\n", row->name, side->name, (unsigned long)count, (unsigned long)expected,
           alike ? "are alike" : "differ");
    exit(1);
}

// The plain side's outcome of a row is the one that all runs are held to. It does something, or nothing would be measured.
static uint64_t settle(const Row *row) {
    draw_up(row);
    clear();
    uint64_t count = once(row, &sides[PLAIN]);
    memcpy(&wanted, &memory, sizeof memory);
    if (count == 0) {
        printf("%s: nothing was done\n", row->name);
        exit(1);
    }
    return count;
}

// The least seconds of each chunk of each side.
static double least[SIDES][CHUNKS];

// One pass, timed. Clearing and comparing are not. Answers the seconds.
static double pass(const Row *row, int s, uint64_t expected) {
    double spent = 0;
    uint64_t count = 0;
    clear();
    for (size_t h = 0; h < CHUNKS; h++) {
        double begun = now();
        count += part(row, &sides[s], h);
        spent += note(&least[s][h], now() - begun);
    }
    agree(row, &sides[s], count, expected);
    return spent;
}

// Passes by turns, until so many have gained nothing and each side had so many times 30 ms.
static void time_by_turns(const Row *row, int runs) {
    uint64_t expected = settle(row);
    Course course = {0, 0};
    for (int s = 0; s < SIDES; s++) forget(least[s]);
    for (; goes_on(&course, runs, SIDES); course.calm++)
        for (int s = 0; s < SIDES; s++) {
            if (!takes_part(row, s)) continue;
            double before = sum_of(least[s]), spent = pass(row, s, expected);
            went(&course, spent, before, sum_of(least[s]));
        }
}

static void measure(const Row *row, int runs) {
    double rate[SIDES] = {0};
    time_by_turns(row, runs);
    double amount = (double)worth(row) * 1e-6;
    printf("%-19s ", row->name);
    for (int s = 0; s < SIDES; s++) {
        rate[s] = amount / sum_of(least[s]);
        if (takes_part(row, s)) printf(" %s %.1f ", sides[s].name, rate[s]);
    }
    double better = rate[PLAIN] > rate[SPAN] ? rate[PLAIN] : rate[SPAN];
    printf(" %s  ratio %.2f\n", row->kind == PACK || row->kind == UNPACK ? "MB/s" : "Mpixel/s", rate[OURS] / better);
    fflush(0);
}

static void check(const Row *row) {
    uint64_t expected = settle(row);
    for (int s = 0; s < SIDES; s++) {
        if (!takes_part(row, s)) continue;
        clear();
        agree(row, &sides[s], once(row, &sides[s]), expected);
    }
}

// ---- recordings

typedef enum { REGULAR, RANDOM, ALONE, STRIPS } Sort;

static const struct {
    const char *name;
    Sort sort;
} recorded[] = {
    {"words regular", REGULAR}, // I, Z, Y by turns
    {"words random", RANDOM},   // I, Z, Y and T1X as they come: nothing is drawn
    {"words alone", ALONE},     // triangles of some 30 pixels, each by itself: 12 words
    {"words strips", STRIPS},   // such triangles in strips: four words each
};

// A recording is one call, and so each chunk is a recording of its own, with so many words in so many bytes.
enum { RECORDED = 3750, ROOM = BYTES / CHUNKS };
static size_t put;
static void word(unsigned command, unsigned data) { words[put++] = command << 16 | data; }

static void vertex(unsigned command, unsigned x, unsigned y) {
    word(1, any(65536));
    word(2, any(65536));
    word(3, y);
    word(command, x);
}

// Makes the words of recording h and packs them: INIT with lines of 1,024, depth test and both write enables on, and then those of its sort. Answers
// how many there are.
static size_t record(Sort sort, size_t h) {
    put = 0;
    word(15, 0x0800);
    word(14, 3), word(13, 0x40);
    word(14, 4), word(13, 6);
    word(1, 0);
    unsigned x = 0, y = 0;
    for (size_t k = 0; put + 12 <= RECORDED; k++) switch (sort) {
    case REGULAR: word(1, any(65536)), word(2, any(65536)), word(3, any(1000)); break;
    case RANDOM: {
        static const unsigned commands[] = {1, 2, 3, 5};
        word(commands[any(4)], any(1000));
        break;
    }
    case ALONE:
        x = any(1000), y = any(1000);
        vertex(5, x + any(4), y + any(4)), vertex(4, x + 8, y + any(4)), vertex(4, x + any(4), y + 8);
        break;
    case STRIPS:
        if (k % 100 == 0) x = any(600), y = any(1000);
        vertex(k % 100 == 0 ? 5 : 4, x, y + (k % 2 == 0 ? 0 : 8));
        x += 4;
    }
    if (put % 2 != 0) word(1, 0);
    plain_pack(words, put, bytes + h * ROOM, ROOM);
    return put;
}

// The proved code is compiled for x86-64, where a struct that a call answers is written to a place that comes as its first argument. In objects that were
// compiled for another processor it still does, and C there would hand the place over in another way.
#if defined(__x86_64__)
static struct dextolumen_ended run_whole(const uint8_t *stream, size_t size) { return dextolumen_run(stream, size, LENT); }
#else
void *run_to(struct dextolumen_ended *, const uint8_t *, size_t, uint16_t *, size_t, uint16_t *, size_t) __asm__("dextolumen_run");
static struct dextolumen_ended run_whole(const uint8_t *stream, size_t size) {
    struct dextolumen_ended told;
    run_to(&told, stream, size, LENT);
    return told;
}
#endif

// One pass over the recordings, timed. Every word must be accepted. Answers the passed pixels, and adds the seconds to those that were spent.
static uint64_t recite(const char *name, const size_t *length, double *shortest, double *spent) {
    uint64_t passed = 0;
    clear();
    for (size_t h = 0; h < CHUNKS; h++) {
        double begun = now();
        struct dextolumen_ended told = run_whole(bytes + h * ROOM, length[h] / 2 * 5);
        *spent += note(&shortest[h], now() - begun);
        passed += told.sum;
        if (told.refusal == 0 && told.index == length[h]) continue;
        printf("%s: told %lu at %lu\n", name, (unsigned long)told.refusal, (unsigned long)told.index);
        exit(1);
    }
    return passed;
}

// Million words a second of the proved code: there is no word machine in C to compare it with.
static void measure_words(const char *name, Sort sort, int runs) {
    size_t length[CHUNKS], all = 0;
    double shortest[CHUNKS];
    uint64_t passed = 0;
    Course course = {0, 0};
    seed = 8512;
    for (size_t h = 0; h < CHUNKS; h++) all += length[h] = record(sort, h);
    forget(shortest);
    for (; goes_on(&course, runs, 1); course.calm++) {
        double before = sum_of(shortest), spent = 0;
        passed = recite(name, length, shortest, &spent);
        went(&course, spent, before, sum_of(shortest));
    }
    if ((passed == 0) != (sort == REGULAR || sort == RANDOM)) {
        printf("%s: %lu pixels passed\n", name, (unsigned long)passed);
        exit(1);
    }
    printf("%-19s  ours %.1f  Mword/s\n", name, (double)all * 1e-6 / sum_of(shortest));
    fflush(0);
}

int main(int argc, char **argv) {
    int runs = argc > 1 ? atoi(argv[1]) : 1;
    for (size_t k = 0; k < sizeof odd / sizeof odd[0]; k++) check(&odd[k]);
    for (size_t k = 0; k < sizeof timed / sizeof timed[0]; k++) measure(&timed[k], runs);
    for (size_t k = 0; k < sizeof recorded / sizeof recorded[0]; k++) measure_words(recorded[k].name, recorded[k].sort, runs);
    return 0;
}
