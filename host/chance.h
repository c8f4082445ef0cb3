// Chance, the same in each run.
#ifndef CHANCE_H
#define CHANCE_H

#include <stdint.h>

static uint64_t chance(void) {
    static uint64_t state = 8512;
    state ^= state << 13;
    state ^= state >> 7;
    state ^= state << 17;
    return state * UINT64_C(0x2545F4914F6CDD1D) >> 16;
}

static unsigned below(unsigned n) { return (unsigned)(chance() % n); }

#endif
