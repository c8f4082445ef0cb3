// What a good C programmer ends with. Triangles: a row's span by one division an edge, I and Z carried along it as quotient and remainder,
// edges and sums carried from row to row. Lines: the side step, I and Z carried the same way, and no bounds asked inside the picture.
// Streams: two words as one 40-bit number in one wide load or store. Squares: a row of a square in one comparison.
#include "rivals.h"

// ---- numbers carried as quotient and remainder

// A number over `under`: its quotient and remainder, and what a step adds to either.
typedef struct {
    int64_t quotient, remainder, step, more, under;
} Carried;

// 0 over `under`, to be raised by `slope` over `under` a step; slopes fall too, so the division rounds down.
static inline Carried carried(int64_t slope, int64_t under) {
    int64_t step = slope / under - (slope % under < 0);
    return (Carried){0, 0, step, slope - step * under, under};
}

// The same, begun at `over`, which is not negative.
static inline Carried from(Carried c, int64_t over) {
    c.quotient = over / c.under;
    c.remainder = over % c.under;
    return c;
}

// A number that no step changes; where it is used, the compiler drops the carrying.
static inline Carried still(int64_t number) { return (Carried){number, 0, 0, 0, 1}; }

// One step on; tells by all ones that the remainder ran over, by 0 that not. Both remainders are worked out and one is taken, because a
// branch would be guessed wrong half the time.
static inline int64_t advance(Carried *c) {
    int64_t stays = c->remainder + c->more, turns = stays - c->under, over = -(int64_t)(turns >= 0);
    c->remainder = turns >= 0 ? turns : stays;
    c->quotient += c->step - over;
    return over;
}

// ---- triangles

// The first and the last pixel of a row, counted from the box's left; none where the last is below the first.
typedef struct {
    int64_t first, last;
} Span;

// The part of a span where the edge covers; `e` is its expression at the box's left less the least that covers.
static inline Span cut(Span s, int64_t e, int64_t dx) {
    if (dx > 0 && e < 0) s.first = greater(s.first, (dx - 1 - e) / dx);
    else if (e < 0) s.last = -1;
    else if (dx < 0) s.last = lesser(s.last, e / -dx);
    return s;
}

// A branch a pixel: neighbours mostly pass or fail together, and on rows of constant triangles it beat the vectors of a loop without.
static inline uint64_t shade(uint16_t *im, uint16_t *zm, int64_t n, Carried i, Carried z) {
    uint64_t passed = 0;
    for (int64_t k = 0; k < n; k++) {
        if ((uint16_t)z.quotient < zm[k]) {
            zm[k] = (uint16_t)z.quotient;
            im[k] = (uint16_t)i.quotient;
            passed++;
        }
        advance(&z);
        advance(&i);
    }
    return passed;
}

// A number of the corners over the box: 2N + D at the row's left, and what a step along x and along y adds to it.
typedef struct {
    int64_t at, dx, dy;
} Sum;

static inline Sum sum(const Edge f[3], int64_t area, int64_t a, int64_t b, int64_t c) {
    const int64_t number[3] = {a, b, c}, at[3] = {f[0].at, f[1].at, f[2].at};
    const int64_t dx[3] = {f[0].dx, f[1].dx, f[2].dx}, dy[3] = {f[0].dy, f[1].dy, f[2].dy};
    return (Sum){2 * weighed(number, at) + area, 2 * weighed(number, dx), 2 * weighed(number, dy)};
}

// Both shadings over the same spans.
CASED uint64_t spans(int constant, Triangle t, Vertex flat, Picture p) {
    const Edge *f = t.opposite;
    int64_t e[3] = {f[0].at - f[0].least, f[1].at - f[1].least, f[2].at - f[2].least};
    Sum i = sum(f, t.area, t.corner[0].i, t.corner[1].i, t.corner[2].i), z = sum(f, t.area, t.corner[0].z, t.corner[1].z, t.corner[2].z);
    Carried along_i = carried(i.dx, 2 * t.area), along_z = carried(z.dx, 2 * t.area);
    uint64_t passed = 0;
    for (int64_t y = t.bottom; y <= t.top; y++) {
        Span s = {0, t.right - t.left};
        for (int k = 0; k < 3; k++) s = cut(s, e[k], f[k].dx);
        int64_t place = y * p.line + t.left + s.first, n = s.last - s.first + 1;
        if (n > 0 && constant) passed += shade(p.im + place, p.zm + place, n, still(flat.i), still(flat.z));
        else if (n > 0)
            passed += shade(p.im + place, p.zm + place, n, from(along_i, i.at + s.first * i.dx), from(along_z, z.at + s.first * z.dx));
        for (int k = 0; k < 3; k++) e[k] += f[k].dy;
        i.at += i.dy;
        z.at += z.dy;
    }
    return passed;
}

uint64_t span_triangle(uint16_t line, uint16_t layout, uint8_t constant, CORNER(a), CORNER(b), CORNER(c), MEMORIES) {
    (void)layout;
    Picture p = picture(line, im, ni, zm, nz);
    Vertex last = {cx, cy, ci, cz};
    Triangle t = triangle((Vertex){ax, ay, ai, az}, (Vertex){bx, by, bi, bz}, last, p);
    if (t.area == 0) return 0; // its slopes would be over 0
    return constant ? spans(1, t, last, p) : spans(0, t, last, p);
}

// ---- lines

// What a segment of modes 0 and 1 writes.
typedef struct {
    uint32_t pattern;
    uint16_t foreground, background;
} Dashes;

// Every mode's walk; what a mode has no use for is not carried.
CASED uint64_t trace(uint8_t mode, int clipped, const Segment s, const Dashes d, const Picture p) {
    Carried side = from(carried(2 * s.m, 2 * s.n), s.n);
    Carried i = from(carried(2 * (s.second.i - s.first.i), 2 * s.n), 2 * s.n * s.first.i + s.n);
    Carried z = from(carried(2 * (s.second.z - s.first.z), 2 * s.n), 2 * s.n * s.first.z + s.n);
    // a slope of 1 never runs over: its step aside is part of every step ahead
    int64_t ahead_x = s.lead_x + side.step * s.side_x, ahead_y = s.lead_y + side.step * s.side_y;
    int64_t ahead = ahead_y * p.line + ahead_x, aside = s.side_y * p.line + s.side_x;
    int64_t x = s.first.x, y = s.first.y, place = y * p.line + x;
    uint32_t pattern = d.pattern, flip = d.foreground ^ d.background;
    uint64_t passed = 0;
    for (int64_t k = 0; k <= s.last; k++) {
        uint32_t set = pattern >> 31;
        int offered = (!clipped || (x < p.line && y < p.rows)) && (mode != 1 || set);
        if (offered && (mode != 2 || (uint16_t)z.quotient <= p.zm[place])) {
            if (mode == 2) p.zm[place] = (uint16_t)z.quotient;
            p.im[place] = (uint16_t)(mode == 2 ? (uint32_t)i.quotient : d.background ^ (flip & -set));
            passed++;
        }
        pattern = pattern << 1 | set;
        advance(&i);
        advance(&z);
        int64_t over = advance(&side);
        place += ahead + (aside & over);
        x += ahead_x + (s.side_x & over);
        y += ahead_y + (s.side_y & over);
    }
    return passed;
}

static inline int inside(Vertex v, Picture p) { return v.x < p.line && v.y < p.rows; }

// A segment whose ends are in the picture stays there.
CASED uint64_t trace_either(uint8_t mode, Segment s, Dashes d, Picture p) {
    return inside(s.first, p) && inside(s.second, p) ? trace(mode, 0, s, d, p) : trace(mode, 1, s, d, p);
}

uint64_t span_segment(uint16_t line, uint16_t layout, uint8_t mode, uint32_t pattern, uint16_t foreground, uint16_t background, CORNER(a), CORNER(b),
                      MEMORIES) {
    (void)layout;
    Picture p = picture(line, im, ni, zm, nz);
    Segment s = segment((Vertex){ax, ay, ai, az}, (Vertex){bx, by, bi, bz});
    Dashes d = {pattern, foreground, background};
    return mode == 2 ? trace_either(2, s, d, p) : mode == 1 ? trace_either(1, s, d, p) : trace_either(0, s, d, p);
}

// ---- streams

// The eight bytes at `at` as a number, the first the most significant; the compiler makes one load or store of the copy.
static inline uint64_t load(const uint8_t *at) {
    uint64_t v;
    __builtin_memcpy(&v, at, 8);
    return __builtin_bswap64(v);
}

static inline void store(uint8_t *at, uint64_t v) {
    v = __builtin_bswap64(v);
    __builtin_memcpy(at, &v, 8);
}

// A wide store reaches three bytes past its pair: the next pair overwrites them, and near the end the plain loop does the rest.
uint64_t span_pack(const uint32_t *words, size_t n, uint8_t *out, size_t m) {
    uint32_t all = 0;
    for (size_t k = 0; k < n; k++) all |= words[k];
    size_t length = (n * 5 + 1) / 2, k = 0;
    if (all > 0xFFFFF || length > m) return 0;
    for (; k + 4 <= n; k += 2) store(out + k / 2 * 5, (uint64_t)words[k] << 44 | (uint64_t)words[k + 1] << 24);
    plain_pack(words + k, n - k, out + k / 2 * 5, m - k / 2 * 5);
    return length;
}

// A wide load reads three bytes past its pair.
uint64_t span_unpack(const uint8_t *bytes, size_t n, uint32_t *out, size_t m) {
    size_t count = n * 2 / 5, k = 0;
    if (!unpackable(bytes, n, m)) return 0;
    for (; k + 4 <= count; k += 2) {
        uint64_t pair = load(bytes + k / 2 * 5);
        out[k] = (uint32_t)(pair >> 44);
        out[k + 1] = (uint32_t)(pair >> 24) & 0xFFFFF;
    }
    plain_unpack(bytes + k / 2 * 5, n - k / 2 * 5, out + k, m - k);
    return count;
}

// ---- squares: a row of a square is one span

int memcmp(const void *, const void *, size_t);

static int differs(const uint16_t *before, const uint16_t *after, size_t width, size_t high, size_t wide) {
    for (size_t j = 0; j < high; j++, before += width, after += width)
        if (wide == 8 ? memcmp(before, after, 16) != 0 : memcmp(before, after, 2 * wide) != 0) return 1;
    return 0;
}

uint64_t span_squares(const uint16_t *before, size_t n, const uint16_t *after, size_t m, size_t width, size_t rows, uint32_t *out, size_t room) {
    uint64_t count = 0;
    if (n != width * rows || m != n) return 0;
    for (size_t k = 0; k < 1024; k++) {
        size_t x = square_x(k), y = square_y(k), at = y * width + x;
        if (x >= width || y >= rows) continue;
        size_t wide = width - x < 8 ? width - x : 8, high = rows - y < 8 ? rows - y : 8;
        if (differs(before + at, after + at, width, high, wide) && count < room) out[count++] = (uint32_t)(y << 16 | x);
    }
    return count;
}
