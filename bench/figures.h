// What the two drivers share: the figures that they draw, the same pseudo-random ones on every machine, and how passes are timed: in chunks. A rate is
// that of the sum of each chunk's least time, so that what else the machine does for a moment costs a chunk of one pass, not the pass; and there
// are passes until that sum hardly falls any more.
#ifndef FIGURES_H
#define FIGURES_H
#include "rivals.h"

struct timespec {
    long tv_sec, tv_nsec;
};
int atoi(const char *);
int clock_gettime(int, struct timespec *);
void exit(int);
int fflush(void *);
void *memset(void *, int, size_t);
int printf(const char *, ...);

// ---- figures

enum {
    LINE = 1024,
    PLACES = LINE * LINE,
    PIXELS = 4 * PLACES, // figures cover the picture about four times, whatever their size: the depth test meets the same mixture
    MOST = PIXELS / 30,
};

typedef struct {
    uint16_t x, y, i, z;
} Point;

#define OF(p) (p).x, (p).y, (p).i, (p).z

// Three corners each. A segment is from the first to the second.
static Point figures[MOST][3];
static size_t drawn;

static const uint32_t PATTERN = 0xF0CCAA1D;
static const uint16_t FOREGROUND = 0xBEEF, BACKGROUND = 0x1234;

static uint64_t seed;

// Splitmix64, below `limit`.
static unsigned any(unsigned limit) {
    uint64_t v = seed += 0x9E3779B97F4A7C15;
    v = (v ^ v >> 30) * 0xBF58476D1CE4E5B9;
    v = (v ^ v >> 27) * 0x94D049BB133111EB;
    return (unsigned)((v ^ v >> 31) % limit);
}

static Point point(unsigned x, unsigned y) { return (Point){(uint16_t)x, (uint16_t)y, (uint16_t)any(65536), (uint16_t)any(65536)}; }

// A figure in a box of its own, turned over and on its side as it comes, and the box anywhere in the picture.
static void place(Point *corner, unsigned box, int clipped) {
    unsigned x = clipped ? LINE - any(box) : any(LINE - box), y = any(LINE - box), mirror = any(2), aside = any(2);
    for (int k = 0; k < 3; k++) {
        unsigned across = mirror ? box - corner[k].x : corner[k].x, up = corner[k].y;
        corner[k].x = (uint16_t)(x + (aside ? up : across));
        corner[k].y = (uint16_t)(y + (aside ? across : up));
    }
}

// The corners come in every order, and so turn either way.
static void draw_up_triangle(Point *corner, unsigned size) {
    unsigned side = 1, first = any(3);
    while (side * side / 2 < size) side++;
    corner[first] = point(any(4), any(4));
    corner[(first + 1) % 3] = point(side + any(4), any(4));
    corner[(first + 2) % 3] = point(any(side), side + 1);
    place(corner, side + 3, 0);
}

static void draw_up_segment(Point *corner, unsigned size, int clipped) {
    unsigned first = any(2);
    corner[first] = point(0, any(size + 1));
    corner[1 - first] = point(size, any(size + 1));
    corner[2] = corner[0];
    place(corner, size, clipped);
}

// Triangles of about so many pixels, or segments of so many steps; the box of a clipped one hangs over the picture's far border.
static void draw_up_figures(int segments, unsigned size, int clipped) {
    drawn = PIXELS / size;
    for (size_t k = 0; k < drawn; k++) {
        if (segments) draw_up_segment(figures[k], size, clipped);
        else draw_up_triangle(figures[k], size);
    }
}

// ---- time

// Chunk h of so many things begins here.
enum { CHUNKS = 64 };
static size_t from(size_t things, size_t h) { return things * h / CHUNKS; }

static double now(void) {
    struct timespec t;
    clock_gettime(1, &t); // CLOCK_MONOTONIC
    return (double)t.tv_sec + (double)t.tv_nsec * 1e-9;
}

// No chunk takes so long.
static const double NEVER = 1e9;

static void forget(double *least) {
    for (size_t h = 0; h < CHUNKS; h++) least[h] = NEVER;
}

// Keeps what a chunk took where it never took less, and answers it.
static double note(double *least, double took) {
    if (took < *least) *least = took;
    return took;
}

static double sum_of(const double *least) {
    double sum = 0;
    for (size_t h = 0; h < CHUNKS; h++) sum += least[h];
    return sum;
}

// How passes go on: the seconds that all took, and how many since one made a sum less by more than one in 200.
typedef struct {
    double spent;
    int calm;
} Course;

static int goes_on(const Course *c, int runs, int sides) { return c->calm < runs || c->spent < 0.03 * runs * sides; }

static void went(Course *c, double spent, double before, double after) {
    c->spent += spent;
    if (after < before * 0.995) c->calm = 0;
}

#endif
