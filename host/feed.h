// A recording fed to the card as a driver gets it: word by word, with one register record that each word updates where it stands; or in
// instalments.
#ifndef FEED_H
#define FEED_H

#include <dextolumen.h>

// From a record, which is a reset's.
static inline struct dextolumen_ended feed_from(struct dextolumen_registers start, const uint8_t *bytes, size_t length, uint16_t *im, size_t ni,
                                               uint16_t *zm, size_t nz) {
    struct dextolumen_ended e = {0, 0, 0, start};
    uint64_t count = dextolumen_word_count(bytes, length);
    e.refusal = dextolumen_refusal(count);
    if (e.refusal != DEXTOLUMEN_ACCEPTED) return e;
    for (; e.index < count; e.index++) {
        uint64_t word = dextolumen_word_at(bytes, length, e.index);
        struct dextolumen_told told = dextolumen_step(&e.registers, (uint8_t)(word >> 16), (uint16_t)word, im, ni, zm, nz);
        e.refusal = told.refusal;
        if (e.refusal != DEXTOLUMEN_ACCEPTED) break;
        e.sum += told.passed;
    }
    return e;
}

static inline struct dextolumen_ended feed(const uint8_t *bytes, size_t length, uint16_t *im, size_t ni, uint16_t *zm, size_t nz) {
    return feed_from(dextolumen_reset(), bytes, length, im, ni, zm, nz);
}

// The same recording in instalments of a few bytes, as a slow line delivers them: 0, 1, 2 .. 6 bytes, and again.
static inline struct dextolumen_ended trickle(const uint8_t *bytes, size_t length, uint16_t *im, size_t ni, uint16_t *zm, size_t nz) {
    struct dextolumen_intake s = dextolumen_begin();
    for (size_t at = 0, part = 0; at < length; part = (part + 1) % 7) {
        size_t size = part < length - at ? part : length - at;
        s = dextolumen_feed(s, bytes + at, size, im, ni, zm, nz);
        at += size;
    }
    s = dextolumen_finish(s, im, ni, zm, nz);
    s = dextolumen_feed(s, bytes, length, im, ni, zm, nz); // changes nothing
    return (struct dextolumen_ended){s.refusal, s.index, s.sum, s.registers};
}

#endif
