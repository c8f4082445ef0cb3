// What a C programmer writes first. Triangles: every pixel of the bounding box, three carried edges, two 64-bit divisions a covered pixel.
// Lines: the rules' divisions at each step. Streams: two words and five bytes at a time, byte by byte.
#include "rivals.h"

typedef enum { GOURAUD, CONSTANT, OFFERED } Job;

// (2N + D) div 2D
static inline uint64_t rounded(int64_t n, int64_t d) { return (uint64_t)(2 * n + d) / (uint64_t)(2 * d); }

// The one walk over a bounding box; counting what is offered looks at no memory.
CASED uint64_t scan(Job job, Triangle t, Vertex flat, Picture p) {
    const Edge *f = t.opposite;
    const int64_t is[3] = {t.corner[0].i, t.corner[1].i, t.corner[2].i}, zs[3] = {t.corner[0].z, t.corner[1].z, t.corner[2].z};
    uint64_t count = 0;
    for (int64_t y = t.bottom; y <= t.top; y++) {
        int64_t up = y - t.bottom;
        int64_t e[3] = {f[0].at + up * f[0].dy, f[1].at + up * f[1].dy, f[2].at + up * f[2].dy};
        for (int64_t x = t.left; x <= t.right; x++, e[0] += f[0].dx, e[1] += f[1].dx, e[2] += f[2].dx) {
            if (e[0] < f[0].least || e[1] < f[1].least || e[2] < f[2].least) continue;
            if (job != OFFERED) {
                size_t place = (size_t)(y * p.line + x);
                uint64_t z = job == CONSTANT ? (uint64_t)flat.z : rounded(weighed(zs, e), t.area);
                if (z >= p.zm[place]) continue;
                p.zm[place] = (uint16_t)z;
                p.im[place] = (uint16_t)(job == CONSTANT ? (uint64_t)flat.i : rounded(weighed(is, e), t.area));
            }
            count++;
        }
    }
    return count;
}

uint64_t plain_triangle(uint16_t line, uint16_t layout, uint8_t constant, CORNER(a), CORNER(b), CORNER(c), MEMORIES) {
    (void)layout;
    Picture p = picture(line, im, ni, zm, nz);
    Vertex last = {cx, cy, ci, cz};
    Triangle t = triangle((Vertex){ax, ay, ai, az}, (Vertex){bx, by, bi, bz}, last, p);
    return constant ? scan(CONSTANT, t, last, p) : scan(GOURAUD, t, last, p);
}

uint64_t plain_offered(uint16_t line, uint16_t layout, uint8_t constant, CORNER(a), CORNER(b), CORNER(c), MEMORIES) {
    (void)constant, (void)ai, (void)az, (void)bi, (void)bz, (void)ci, (void)cz;
    (void)layout;
    Picture p = picture(line, im, ni, zm, nz);
    Vertex last = {cx, cy, 0, 0};
    return scan(OFFERED, triangle((Vertex){ax, ay, 0, 0}, (Vertex){bx, by, 0, 0}, last, p), last, p);
}

// (2((n - k) first + k second) + n) div 2n
static inline uint16_t between(int64_t first, int64_t second, int64_t k, int64_t n) {
    return (uint16_t)rounded((n - k) * first + k * second, n);
}

uint64_t plain_segment(uint16_t line, uint16_t layout, uint8_t mode, uint32_t pattern, uint16_t foreground, uint16_t background, CORNER(a), CORNER(b),
                       MEMORIES) {
    (void)layout;
    Picture p = picture(line, im, ni, zm, nz);
    Segment s = segment((Vertex){ax, ay, ai, az}, (Vertex){bx, by, bi, bz});
    uint64_t passed = 0;
    for (int64_t k = 0; k <= s.last; k++) {
        int64_t aside = (int64_t)rounded(k * s.m, s.n);
        int64_t x = ax + k * s.lead_x + aside * s.side_x, y = ay + k * s.lead_y + aside * s.side_y;
        if (x >= p.line || y >= p.rows) continue;
        size_t place = (size_t)(y * p.line + x);
        if (mode == 2) {
            uint16_t z = between(s.first.z, s.second.z, k, s.n);
            if (z > p.zm[place]) continue;
            p.zm[place] = z;
            p.im[place] = between(s.first.i, s.second.i, k, s.n);
        } else {
            int set = pattern >> (31 - k % 32) & 1;
            if (mode == 1 && !set) continue;
            p.im[place] = set ? foreground : background;
        }
        passed++;
    }
    return passed;
}

// ---- streams

uint64_t plain_pack(const uint32_t *words, size_t n, uint8_t *out, size_t m) {
    for (size_t k = 0; k < n; k++)
        if (words[k] > 0xFFFFF) return 0;
    size_t length = (n * 5 + 1) / 2;
    if (length > m) return 0;
    for (size_t k = 0; k < n; k += 2, out += 5) {
        uint32_t high = words[k], low = k + 1 < n ? words[k + 1] : 0;
        out[0] = (uint8_t)(high >> 12);
        out[1] = (uint8_t)(high >> 4);
        out[2] = (uint8_t)(high << 4 | low >> 16);
        if (k + 1 == n) break;
        out[3] = (uint8_t)(low >> 8);
        out[4] = (uint8_t)low;
    }
    return length;
}

uint64_t plain_unpack(const uint8_t *bytes, size_t n, uint32_t *out, size_t m) {
    size_t count = n * 2 / 5;
    if (!unpackable(bytes, n, m)) return 0;
    for (size_t k = 0; k < count; k += 2, bytes += 5) {
        out[k] = (uint32_t)bytes[0] << 12 | (uint32_t)bytes[1] << 4 | bytes[2] >> 4;
        if (k + 1 == count) break;
        out[k + 1] = (uint32_t)(bytes[2] & 15) << 16 | (uint32_t)bytes[3] << 8 | bytes[4];
    }
    return count;
}

// ---- squares

static int differs(const uint16_t *before, const uint16_t *after, size_t width, size_t rows, size_t x, size_t y) {
    for (size_t j = y; j < y + 8 && j < rows; j++)
        for (size_t i = x; i < x + 8 && i < width; i++)
            if (before[j * width + i] != after[j * width + i]) return 1;
    return 0;
}

uint64_t plain_squares(const uint16_t *before, size_t n, const uint16_t *after, size_t m, size_t width, size_t rows, uint32_t *out,
                       size_t room) {
    uint64_t count = 0;
    if (n != width * rows || m != n) return 0;
    for (size_t k = 0; k < 1024; k++)
        if (differs(before, after, width, rows, square_x(k), square_y(k)) && count < room)
            out[count++] = (uint32_t)(square_y(k) << 16 | square_x(k));
    return count;
}
