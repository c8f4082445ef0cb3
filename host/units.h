// The memories that a board's units are lent, four pairs together, and the calls with all eight of them.
#ifndef UNITS_H
#define UNITS_H

#include <dextolumen.h>

enum { UNITS = 4 };

struct lent {
    uint16_t *i[UNITS], *z[UNITS];
    size_t i_length[UNITS], z_length[UNITS];
};

#define LENT_UNIT(m, u) (m)->i[u], (m)->i_length[u], (m)->z[u], (m)->z_length[u]
#define LENT_UNITS(m) LENT_UNIT(m, 0), LENT_UNIT(m, 1), LENT_UNIT(m, 2), LENT_UNIT(m, 3)

static inline struct dextolumen_board_reply board_step(struct dextolumen_board board, uint8_t command, uint16_t data, const struct lent *m) {
    return dextolumen_board_step(board, command, data, LENT_UNITS(m));
}

static inline struct dextolumen_board_seen board_read(struct dextolumen_board board, const struct lent *m) {
    return dextolumen_board_read(board, LENT_UNITS(m));
}

static inline struct dextolumen_board_ended board_run(uint64_t units, const uint8_t *bytes, size_t length, const struct lent *m) {
    return dextolumen_board_run(units, bytes, length, LENT_UNITS(m));
}

// INIT's chips code for so many units.
static inline uint16_t chips_code(unsigned units) { return units == 4 ? 2 : units == 2 ? 1 : 0; }

#endif
