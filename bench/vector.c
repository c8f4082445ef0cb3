// What a specialist for vectors of 16 bytes ends with, for triangles: eight pixels a turn, I and Z carried as quotient and remainder in lanes, sides
// by reciprocals that are carried from row to row. It may do what ours may not: a turn reads and writes eight places, and writes back what stood
// in those that the span has no part of. It is reported, and no part of the ratio.
// The kit has no <emmintrin.h>: this is the vectors of gcc and clang, which are SSE2 on x86-64 and NEON on Arm.
#include "rivals.h"

enum { LANES = 8 };

// Eight numbers of a memory, and four remainders. A comparison answers lanes of all ones and of zeros.
typedef uint16_t Eight __attribute__((vector_size(16)));
typedef __INT32_TYPE__ Four __attribute__((vector_size(16)));

static inline Eight load(const uint16_t *at) {
    Eight v;
    __builtin_memcpy(&v, at, sizeof v);
    return v;
}

static inline void store(uint16_t *at, Eight v) { __builtin_memcpy(at, &v, sizeof v); }

// ---- sides

// An edge that cuts rows from their left (`left` is all ones) or from their right (0). `over` divided by its height is the last pixel before the cut,
// counted from the box's left, and `up` is what a row adds to `over`. `inverse` is the height's reciprocal, for an `over` below `most`.
typedef struct {
    int64_t over, up, most;
    uint64_t inverse, left;
} Side;

// An edge that cuts from the left has -e - 1 in the place of e: the same division tells the last pixel that it does not cover. A level edge has
// no height, and cuts nothing or all.
static inline Side side(Edge f) {
    int64_t left = -(int64_t)(f.dx > 0), height = f.dx > 0 ? f.dx : -f.dx;
    return (Side){(f.at - f.least) ^ left, left ? -f.dy : f.dy, height << 16, (1ull << 48) / (uint64_t)(height + !height) + 1, (uint64_t)left};
}

// The first pixel behind the cut; the product is the quotient wherever that is below 65,536, and no row is longer.
static inline uint64_t behind(Side s) {
    uint64_t at = ((uint64_t)s.over * s.inverse >> 48) + 1;
    return s.over < 0 ? 0 : s.over >= s.most ? 65536 : at;
}

// A row's pixels, from `first` to the one before `end`.
typedef struct {
    uint64_t first, end;
} Span;

static inline Span cut(Span s, Side by) {
    uint64_t at = behind(by), first = at & by.left, end = at | by.left;
    return (Span){first > s.first ? first : s.first, end < s.end ? end : s.end};
}

// ---- numbers in lanes

typedef struct {
    Eight quotient;
    Four low, high;
} Lanes;

// A number of the corners: 2N + D at the row's left and what a step along x and along y adds, all over `under`; what each lane is ahead of the first,
// and what a turn adds to each.
typedef struct {
    int64_t at, dx, dy, under;
    Lanes ahead, turn;
} Number;

// One sum of lanes, with remainders below `under` again: both terms' were. A lane that runs over is one that does not stay, and so one is added to
// all and taken from those that stay; SSE2 has no comparison for the other way round.
static inline Lanes plus(Lanes a, Lanes b, __INT32_TYPE__ under) {
    Four low = a.low + b.low, high = a.high + b.high, stays_low = low < under, stays_high = high < under;
    Eight stays = __builtin_shufflevector((Eight)stays_low, (Eight)stays_high, 0, 2, 4, 6, 8, 10, 12, 14);
    return (Lanes){a.quotient + (b.quotient + 1) + stays, low - (~stays_low & under), high - (~stays_high & under)};
}

static inline Lanes same(int64_t quotient, int64_t remainder) {
    Four r = (Four){0} + (__INT32_TYPE__)remainder;
    return (Lanes){(Eight){0} + (uint16_t)quotient, r, r};
}

static inline Number number(const Triangle *t, int64_t a, int64_t b, int64_t c) {
    const Edge *f = t->opposite;
    const int64_t of[3] = {a, b, c}, at[3] = {f[0].at, f[1].at, f[2].at};
    const int64_t dx[3] = {f[0].dx, f[1].dx, f[2].dx}, dy[3] = {f[0].dy, f[1].dy, f[2].dy};
    Number n = {2 * weighed(of, at) + t->area, 2 * weighed(of, dx), 2 * weighed(of, dy), 2 * t->area, same(0, 0), same(0, 0)};
    int64_t step = n.dx / n.under - (n.dx % n.under < 0), more = n.dx - step * n.under, quotient = 0, remainder = 0;
    uint16_t quotients[LANES];
    __INT32_TYPE__ remainders[LANES];
    for (int k = 0; k < LANES; k++) {
        quotients[k] = (uint16_t)quotient;
        remainders[k] = (__INT32_TYPE__)remainder;
        int64_t over = remainder + more >= n.under;
        quotient += step + over;
        remainder += more - over * n.under;
    }
    __builtin_memcpy(&n.ahead, quotients, sizeof quotients);
    __builtin_memcpy(&n.ahead.low, remainders, sizeof remainders);
    n.turn = same(quotient, remainder);
    return n;
}

// The first eight from pixel `first` of the row on.
static inline Lanes begun(const Number *n, uint64_t first) {
    uint64_t over = (uint64_t)(n->at + (int64_t)first * n->dx), quotient = over / (uint64_t)n->under;
    return plus(same((int64_t)quotient, (int64_t)(over - quotient * (uint64_t)n->under)), n->ahead, (__INT32_TYPE__)n->under);
}

static inline Lanes next(const Number *n, Lanes l) { return plus(l, n->turn, (__INT32_TYPE__)n->under); }

// ---- rows

// Where a span lies, how many places it has, and how many the memories have from there on.
typedef struct {
    uint16_t *im, *zm;
    uint64_t places, room;
} Run;

// Eight places: those `inside` are offered the numbers, and where they pass is answered.
static inline Eight turn_over(uint16_t *im, uint16_t *zm, Eight inside, Eight i, Eight z) {
    Eight old_i = load(im), old_z = load(zm), passed = (Eight)(z < old_z) & inside;
    store(im, (passed & i) | (~passed & old_i));
    store(zm, (passed & z) | (~passed & old_z));
    return passed;
}

// The places that are left when no eight are. Where the memories end before the eighth, copies stand in for them.
static inline Eight rest_over(Run r, Eight i, Eight z) {
    const Eight lane = {0, 1, 2, 3, 4, 5, 6, 7}, inside = (Eight)(lane < (uint16_t)r.places);
    uint16_t is[LANES] = {0}, zs[LANES] = {0};
    if (r.room >= LANES) return turn_over(r.im, r.zm, inside, i, z);
    __builtin_memcpy(is, r.im, r.places * sizeof is[0]);
    __builtin_memcpy(zs, r.zm, r.places * sizeof zs[0]);
    Eight passed = turn_over(is, zs, inside, i, z);
    __builtin_memcpy(r.im, is, r.places * sizeof is[0]);
    __builtin_memcpy(r.zm, zs, r.places * sizeof zs[0]);
    return passed;
}

// A span, from the numbers of its first eight places on: how many passed in each lane. Constant numbers stay.
CASED Eight span_over(int constant, Run r, Lanes i, Lanes z, const Number *of_i, const Number *of_z) {
    Eight passed = {0};
    for (; r.places >= LANES; r.places -= LANES, r.room -= LANES, r.im += LANES, r.zm += LANES) {
        passed -= turn_over(r.im, r.zm, ~(Eight){0}, i.quotient, z.quotient);
        if (!constant) i = next(of_i, i), z = next(of_z, z);
    }
    return r.places == 0 ? passed : passed - rest_over(r, i.quotient, z.quotient);
}

// ---- triangles

// Both shadings over the same spans. A lane counts at most 8,192 of a row, and so the rows are summed in wider ones.
CASED uint64_t rows(int constant, const Triangle *t, Vertex flat, Picture p) {
    Side to_a = side(t->opposite[0]), to_b = side(t->opposite[1]), to_c = side(t->opposite[2]);
    Number i = number(t, t->corner[0].i, t->corner[1].i, t->corner[2].i), z = number(t, t->corner[0].z, t->corner[1].z, t->corner[2].z);
    const uint64_t width = (uint64_t)greater(0, t->right - t->left + 1); // a box behind the far border has none
    Four passed = {0};
    for (int64_t y = t->bottom; y <= t->top; y++) {
        Span s = cut(cut(cut((Span){0, width}, to_a), to_b), to_c);
        if (s.first < s.end) {
            uint64_t at = (uint64_t)(y * p.line + t->left) + s.first, all = (uint64_t)(p.rows * p.line);
            Run r = {p.im + at, p.zm + at, s.end - s.first, all - at};
            Four counted = (Four)(constant ? span_over(1, r, same(flat.i, 0), same(flat.z, 0), 0, 0)
                                           : span_over(0, r, begun(&i, s.first), begun(&z, s.first), &i, &z));
            passed += (counted & 0xFFFF) + (counted >> 16);
        }
        to_a.over += to_a.up, to_b.over += to_b.up, to_c.over += to_c.up;
        i.at += i.dy, z.at += z.dy;
    }
    return (uint64_t)(passed[0] + passed[1] + passed[2] + passed[3]);
}

// Remainders of larger triangles than any of the benchmark's have no room in their lanes.
enum { LARGEST = 1 << 28 };

uint64_t vector_triangle(uint16_t line, uint16_t layout, uint8_t constant, CORNER(a), CORNER(b), CORNER(c), MEMORIES) {
    Picture p = picture(line, im, ni, zm, nz);
    Vertex last = {cx, cy, ci, cz};
    Triangle t = triangle((Vertex){ax, ay, ai, az}, (Vertex){bx, by, bi, bz}, last, p);
    if (t.area == 0) return 0; // its slopes would be over 0
    if (t.area > LARGEST) return span_triangle(line, layout, constant, ax, ay, ai, az, bx, by, bi, bz, cx, cy, ci, cz, im, ni, zm, nz);
    return constant ? rows(1, &t, last, p) : rows(0, &t, last, p);
}
