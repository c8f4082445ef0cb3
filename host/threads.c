// Calls in threads: several at once, each with memories, a record and outputs of its own and on a small stack of its own, take a recording in every way
// that there is, again and again. Each must come to what it came to when nothing else ran, and no call may take more of the stack than the header
// says. Stops at the first fault with status 1.
// usage: threads < RECORDING
#include "feed.h"
#include "units.h"
#include <pthread.h>
#include <stdio.h>
#include <stdlib.h>
#include <string.h>

enum {
    LIMIT = 8192, // bytes
    WORDS = DEXTOLUMEN_WORDS_HELD(LIMIT),
    PLACES = 8192,
    WIDTH = 256,
    ROWS = PLACES / WIDTH,
    ROOM = 1024, // squares
    THREADS = 4,
    ROUNDS = 8,
    STACK = 65536, // of a thread
    PAINT = 0xA5,
};

static uint8_t bytes[LIMIT];
static size_t length;

// ---- what a thread has for itself

struct memories {
    uint16_t i[PLACES], z[PLACES];
};

// What the ways come to: in one call, word by word, in instalments, and mended; over tiles, in one call and word by word; and on a board of four in
// one call, on a board of two word by word.
struct outcome {
    struct memories run, stepped, trickled, mended, tiled, tiles, four[UNITS], two[UNITS];
    uint64_t refusal[5], index[5], sum[5];
    struct dextolumen_registers registers[5];
    struct dextolumen_mended mend;
    struct dextolumen_board boards[2];
    uint64_t words, packed, listed, copied, reads, board_refusal[2], board_sum[2], board_read;
    uint32_t unpacked[WORDS], for_four[WORDS], squares[ROOM];
    uint64_t indices[WORDS];
    uint16_t view[PLACES];
    uint8_t out[LIMIT], good[LIMIT], numbers[WORDS], packed_for_four[LIMIT];
};

static struct worker {
    uint8_t stack[STACK];
    pthread_t thread;
    struct outcome came;
    unsigned rounds;
} workers[THREADS] __attribute__((aligned(4096)));

static struct outcome alone;

_Noreturn static void fault(const char *what) {
    printf("threads: %s\n", what);
    fflush(stdout);
    exit(1);
}

// ---- the calls

static void fresh(struct memories *m) {
    for (size_t at = 0; at < PLACES; at++) m->i[at] = 0, m->z[at] = 65535;
}

// Opens the picture's lowest row and reads it; tells the sum of its pixels.
static uint64_t read_row(struct dextolumen_registers r, struct memories *m) {
    static const uint16_t words[][2] = {{9, 1}, {13, 0}, {13, 0}, {13, WIDTH - 1}, {13, 0}};
    uint64_t sum = 0;
    for (size_t k = 0; k < sizeof words / sizeof *words; k++) dextolumen_step(&r, (uint8_t)words[k][0], words[k][1], m->i, PLACES, m->z, PLACES);
    for (;;) {
        struct dextolumen_seen seen = dextolumen_read(&r, m->i, PLACES, m->z, PLACES);
        if (seen.refusal != DEXTOLUMEN_ACCEPTED) return sum;
        sum += seen.pixel + 1u;
    }
}

// Fresh memories for so many units, together as large as the chip's.
static struct lent fresh_units(struct memories *unit, unsigned units) {
    struct lent m;
    for (unsigned u = 0; u < UNITS; u++) {
        fresh(&unit[u]);
        m.i[u] = unit[u].i, m.z[u] = unit[u].z;
        m.i_length[u] = m.z_length[u] = u < units ? PLACES / units : 0;
    }
    return m;
}

static uint32_t for_board(unsigned units, uint32_t word) { return word >> 16 == 15 ? word | (uint32_t)chips_code(units) << 6 : word; }

// The unpacked recording on boards: of four in one call, of two word by word, and a read there.
static void take_boards(struct outcome *o) {
    struct lent m = fresh_units(o->four, 4);
    for (uint64_t k = 0; k < o->words; k++) o->for_four[k] = for_board(4, o->unpacked[k]);
    struct dextolumen_board_ended e = board_run(4, o->packed_for_four, dextolumen_pack(o->for_four, o->words, o->packed_for_four, LIMIT), &m);
    o->boards[0] = e.board, o->board_refusal[0] = e.refusal, o->board_sum[0] = e.sum;
    m = fresh_units(o->two, 2);
    o->boards[1] = dextolumen_board_reset(2).board;
    for (uint64_t k = 0; k < o->words && o->board_refusal[1] == DEXTOLUMEN_ACCEPTED; k++) {
        uint32_t word = for_board(2, o->unpacked[k]);
        struct dextolumen_board_reply r = board_step(o->boards[1], (uint8_t)(word >> 16), (uint16_t)word, &m);
        o->boards[1] = r.board, o->board_refusal[1] = r.refusal, o->board_sum[1] += r.passed;
    }
    o->board_read = board_read(o->boards[1], &m).refusal;
}

// Whether so many units show what one chip shows.
static int read_together(const struct memories *unit, unsigned units, const struct memories *chip) {
    for (size_t at = 0; at < PLACES; at++)
        if (unit[at % units].i[at / units] != chip->i[at] || unit[at % units].z[at / units] != chip->z[at]) return 0;
    return 1;
}

// Keeps an answer field by field: what stands between fields is nobody's.
static void keep(struct outcome *o, size_t way, struct dextolumen_ended e) {
    o->refusal[way] = e.refusal;
    o->index[way] = e.index;
    o->sum[way] = e.sum;
    o->registers[way] = e.registers;
}

// Every call, once or more.
static void take(struct outcome *o) {
    static const uint16_t before[PLACES];
    memset(o, 0, sizeof *o);
    fresh(&o->run);
    fresh(&o->stepped);
    fresh(&o->trickled);
    fresh(&o->mended);
    fresh(&o->tiled);
    fresh(&o->tiles);
    keep(o, 0, dextolumen_run(bytes, length, o->run.i, PLACES, o->run.z, PLACES));
    keep(o, 1, feed(bytes, length, o->stepped.i, PLACES, o->stepped.z, PLACES));
    keep(o, 2, trickle(bytes, length, o->trickled.i, PLACES, o->trickled.z, PLACES));
    keep(o, 3, dextolumen_run_tiled(bytes, length, o->tiled.i, PLACES, o->tiled.z, PLACES));
    keep(o, 4, feed_from(dextolumen_reset_tiled(), bytes, length, o->tiles.i, PLACES, o->tiles.z, PLACES));
    o->mend = dextolumen_mend(bytes, length, o->good, LIMIT, o->indices, WORDS, o->numbers, WORDS, o->mended.i, PLACES, o->mended.z, PLACES);
    o->words = dextolumen_unpack(bytes, length, o->unpacked, WORDS);
    o->packed = dextolumen_pack(o->unpacked, o->words, o->out, LIMIT);
    o->listed = dextolumen_squares(before, PLACES, o->run.i, PLACES, WIDTH, ROWS, o->squares, ROOM);
    o->copied = dextolumen_copy_squares(o->squares, o->listed, o->run.i, PLACES, WIDTH, ROWS, o->view, PLACES);
    o->reads = read_row(o->registers[0], &o->run);
    take_boards(o);
}

// What must be so of the calls by themselves.
static void look(const struct outcome *o) {
    if (o->refusal[0] != DEXTOLUMEN_ACCEPTED || o->registers[0].frame.line != WIDTH) fault("a recording of line length 256 that is not refused is asked for");
    if (memcmp(&o->run, &o->stepped, sizeof o->run) != 0 || memcmp(&o->run, &o->trickled, sizeof o->run) != 0) fault("the ways draw unlike pictures");
    if (memcmp(&o->tiled, &o->tiles, sizeof o->tiled) != 0 || o->sum[3] != o->sum[0]) fault("the ways over tiles draw unlike pictures, or not what rows show");
    if (memcmp(&o->run, &o->mended, sizeof o->run) != 0 || o->mend.refusal != DEXTOLUMEN_ACCEPTED || o->mend.dropped != 0) fault("a good recording is mended");
    if (o->words != o->index[0] || o->packed != length || memcmp(o->out, bytes, length) != 0) fault("unpacked and packed it is another recording");
    if (o->listed == 0 || o->copied != o->listed || memcmp(o->view, o->run.i, sizeof o->view) != 0) fault("the viewer shows another picture");
    if (o->reads < WIDTH) fault("a row has fewer pixels");
    if (o->board_refusal[0] != DEXTOLUMEN_ACCEPTED || o->board_sum[0] != o->sum[0]) fault("a board of four tells otherwise");
    if (o->board_refusal[1] != DEXTOLUMEN_ACCEPTED || o->board_sum[1] != o->sum[0]) fault("a board of two tells otherwise");
    if (!read_together(o->four, 4, &o->run) || !read_together(o->two, 2, &o->run)) fault("boards draw unlike pictures");
    if (o->board_read != DEXTOLUMEN_UNMODELLED) fault("two units are read");
}

// ---- the threads

static void *work(void *given) {
    struct worker *w = given;
    for (unsigned k = 0; k < w->rounds; k++) take(&w->came);
    return NULL;
}

static void begin(struct worker *w, unsigned rounds) {
    pthread_attr_t attributes;
    memset(w->stack, PAINT, STACK);
    w->rounds = rounds;
    if (pthread_attr_init(&attributes) != 0 || pthread_attr_setstack(&attributes, w->stack, STACK) != 0) fault("no such stack");
    if (pthread_create(&w->thread, &attributes, work, w) != 0) fault("no thread");
}

// Waits for a thread, and tells how much of its stack it has used.
static size_t end(struct worker *w) {
    size_t left = 0;
    if (pthread_join(w->thread, NULL) != 0) fault("a thread is lost");
    while (left < STACK && w->stack[left] == PAINT) left++;
    return STACK - left;
}

int main(void) {
    size_t most = 0, idle;
    length = fread(bytes, 1, sizeof bytes, stdin);
    if (ferror(stdin)) fault("standard input");
    take(&alone);
    look(&alone);
    begin(&workers[0], 0); // what a thread takes that makes no call
    idle = end(&workers[0]);
    for (unsigned k = 0; k < THREADS; k++) begin(&workers[k], ROUNDS);
    for (unsigned k = 0; k < THREADS; k++) {
        size_t used = end(&workers[k]);
        if (used > most) most = used;
        if (memcmp(&workers[k].came, &alone, sizeof alone) != 0) fault("beside others a thread comes to something else");
    }
    if (most - idle > DEXTOLUMEN_STACK) fault("a call takes more of the stack than the header says");
    printf("threads: %u at once, %u times each, came to what one comes to alone; calls took %lu bytes of stack\n", THREADS, ROUNDS,
           (unsigned long)(most - idle));
    return fflush(stdout) != 0;
}
