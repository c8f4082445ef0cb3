// Where pixels lie in the lent memories, and which rows are in use, by the frame of a record: rows one after the other, tiles of four by four, or the
// columns that a unit of a board has.
#ifndef TILES_H
#define TILES_H

#include <dextolumen.h>

// The units that share a row: two by the layouts 2 and 3, four by 4 to 7, else one.
static inline size_t units_of(const struct dextolumen_frame *f) { return f->layout < 2 ? 1 : f->layout < 4 ? 2 : 4; }

// Whether the memory has column x.
static inline int has_column(const struct dextolumen_frame *f, size_t x) { return f->layout < 2 || x % units_of(f) == f->layout - units_of(f); }

// In tiles a band of four rows has four lines of places, and each tile of it sixteen.
static inline size_t place(const struct dextolumen_frame *f, size_t x, size_t y) {
    if (f->layout != 1) return y * (f->line / units_of(f)) + x / units_of(f);
    return y / 4 * 4 * f->line + x / 4 * 16 + y % 4 * 4 + x % 4;
}

// The whole rows that so many places hold; in tiles, those of whole bands.
static inline size_t rows_in_use(const struct dextolumen_frame *f, size_t places) {
    size_t rows = places / (f->line / units_of(f));
    if (f->layout == 1) rows -= rows % 4;
    return rows < DEXTOLUMEN_MOST_ROWS ? rows : DEXTOLUMEN_MOST_ROWS;
}

#endif
