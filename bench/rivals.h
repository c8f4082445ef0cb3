// What the sides share: their calls, of one signature, so that a call costs all of them the same; and the geometry of document 01,
// section Figures, that the implementations in C start from. The kit has no C headers, so the few types are named here.
#ifndef RIVALS_H
#define RIVALS_H

typedef __UINT8_TYPE__ uint8_t;
typedef __UINT16_TYPE__ uint16_t;
typedef __UINT32_TYPE__ uint32_t;
typedef __UINT64_TYPE__ uint64_t;
typedef __INT64_TYPE__ int64_t;
typedef __SIZE_TYPE__ size_t;

// A loop that takes its case as a constant is written once and compiled once a case.
#define CASED static inline __attribute__((always_inline))

// ---- the calls

#define CORNER(v) uint16_t v##x, uint16_t v##y, uint16_t v##i, uint16_t v##z
#define MEMORIES uint16_t *im, size_t ni, uint16_t *zm, size_t nz

// One triangle: depth test and both write enables on, all planes, the window as after INIT, transparency FFFF. Answers the passed pixels.
// The rivals draw over rows one after the other, whatever the layout.
typedef uint64_t TriangleCall(uint16_t line, uint16_t layout, uint8_t constant, CORNER(a), CORNER(b), CORNER(c), MEMORIES);
// One segment of a line with the same pen.
typedef uint64_t SegmentCall(uint16_t line, uint16_t layout, uint8_t mode, uint32_t pattern, uint16_t foreground, uint16_t background, CORNER(a), CORNER(b),
                             MEMORIES);
// The packer and the unpacker of recorded streams: the length written, 0 when refused.
typedef uint64_t PackCall(const uint32_t *words, size_t n, uint8_t *out, size_t m);
typedef uint64_t UnpackCall(const uint8_t *bytes, size_t n, uint32_t *out, size_t m);

// The squares of side 8 in which two pictures differ, in the order of request [14]: how many there are. Both pictures have width times rows places,
// and there is room for the list.
typedef uint64_t SquaresCall(const uint16_t *before, size_t n, const uint16_t *after, size_t m, size_t width, size_t rows, uint32_t *out,
                             size_t room);

TriangleCall dextolumen_bench_triangle, plain_triangle, span_triangle, vector_triangle;
SegmentCall dextolumen_bench_segment, plain_segment, span_segment;
PackCall dextolumen_bench_pack, plain_pack, span_pack;
UnpackCall dextolumen_bench_unpack, plain_unpack, span_unpack;
SquaresCall dextolumen_squares, plain_squares, span_squares;

// The pixels that a triangle offers; passed or not, they are what the benchmark counts.
TriangleCall plain_offered;

// ---- the picture

typedef struct {
    uint16_t *im, *zm;
    int64_t line, rows;
} Picture;

enum { MOST_ROWS = 16384 };

// Rows in use: the whole rows that fit, at most 16,384. Memories of unlike length are refused, so they have none.
// The window of INIT holds every vertex and so cuts nothing that these bounds leave.
static inline Picture picture(uint16_t line, MEMORIES) {
    int64_t rows = ni == nz ? (int64_t)(ni / line) : 0;
    return (Picture){im, zm, line, rows < MOST_ROWS ? rows : MOST_ROWS};
}

static inline int64_t lesser(int64_t a, int64_t b) { return a < b ? a : b; }
static inline int64_t greater(int64_t a, int64_t b) { return a > b ? a : b; }

typedef struct {
    int64_t x, y, i, z;
} Vertex;

// ---- triangles

// An edge as its expression: `at` in the box's left bottom pixel, what a step along x and along y adds, and the least value that covers.
typedef struct {
    int64_t at, dx, dy, least;
} Edge;

// A triangle whose corners turn anticlockwise, its doubled area, its bounding box inside the picture, and the edge opposite each corner.
typedef struct {
    Vertex corner[3];
    Edge opposite[3];
    int64_t area, left, right, bottom, top;
} Triangle;

static inline int64_t turn(Vertex a, Vertex b, int64_t x, int64_t y) { return (b.x - a.x) * (y - a.y) - (b.y - a.y) * (x - a.x); }

// A zero covers on an edge that runs downward, or level to the right.
static inline Edge edge(Vertex a, Vertex b, int64_t x, int64_t y) {
    int closed = b.y < a.y || (b.y == a.y && b.x > a.x);
    return (Edge){turn(a, b, x, y), a.y - b.y, b.x - a.x, closed ? 0 : 1};
}

// The box of a triangle with its corners on one line is empty: such a triangle covers nothing.
static inline Triangle triangle(Vertex a, Vertex b, Vertex c, Picture p) {
    int64_t area = turn(a, b, c.x, c.y);
    if (area < 0) {
        Vertex held = b;
        b = c;
        c = held;
        area = -area;
    }
    int64_t left = lesser(a.x, lesser(b.x, c.x)), right = lesser(greater(a.x, greater(b.x, c.x)), p.line - 1);
    int64_t bottom = lesser(a.y, lesser(b.y, c.y)), top = lesser(greater(a.y, greater(b.y, c.y)), p.rows - 1);
    Edge to_a = edge(b, c, left, bottom), to_b = edge(c, a, left, bottom), to_c = edge(a, b, left, bottom);
    return (Triangle){{a, b, c}, {to_a, to_b, to_c}, area, left, right, bottom, area == 0 ? bottom - 1 : top};
}

// The sum of each corner's number times the expression for the edge opposite it.
static inline int64_t weighed(const int64_t number[3], const int64_t e[3]) {
    return number[0] * e[0] + number[1] * e[1] + number[2] * e[2];
}

// ---- segments

// A segment: `last` the number of its last step, n and m the larger and the smaller distance, and the unit step along either axis.
// Without length it is the new endpoint alone; n is 1 then, so that every number may be divided by 2n.
typedef struct {
    Vertex first, second;
    int64_t last, n, m, lead_x, lead_y, side_x, side_y;
} Segment;

static inline Segment segment(Vertex a, Vertex b) {
    int64_t sx = b.x < a.x ? -1 : 1, sy = b.y < a.y ? -1 : 1;
    int64_t wide = sx * (b.x - a.x), high = sy * (b.y - a.y);
    Segment s = {a, b, wide, wide, high, sx, 0, 0, sy};
    if (wide < high) s = (Segment){a, b, high, high, wide, 0, sy, sx, 0};
    if (s.last == 0) {
        s.first = b;
        s.n = 1;
    }
    return s;
}

// ---- squares

// Square number k of the square of side 256: its lower left corner, the bits of y and x by turns.
static inline size_t every_other(size_t k) { return (k & 1) | (k >> 1 & 2) | (k >> 2 & 4) | (k >> 3 & 8) | (k >> 4 & 16); }
static inline size_t square_x(size_t k) { return 8 * every_other(k); }
static inline size_t square_y(size_t k) { return 8 * every_other(k >> 1); }

// ---- streams

// Whether the unpacker takes a stream: its length is that of whole words, an odd one ends with a zero half byte, and the words have room.
static inline int unpackable(const uint8_t *bytes, size_t n, size_t room) {
    size_t rest = n % 5;
    int whole = rest == 0 || (rest == 3 && (bytes[n - 1] & 15) == 0);
    return whole && n * 2 / 5 <= room;
}

#endif
