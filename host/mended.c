// Damaged recordings through dextolumen_mend: words, some of them refused, and lengths of every kind. What the entry tells and leaves is held to a
// walk of the old words one by one with dextolumen_step, refused ones skipped; what it writes runs in dextolumen_run without a refusal and
// draws the same. Everything lent stands between guards and has exactly the room that is needed; with a place less in any of the three, or with
// memories of unlike length, nothing changes. Stops at the first fault with status 1.
// usage: mended
#include "chance.h"
#include <dextolumen.h>
#include <stdio.h>
#include <string.h>

enum {
    STREAMS = 2000,
    BYTES = 200,
    WORDS = DEXTOLUMEN_WORDS_HELD(BYTES),
    PLACES = 2048,
    GUARD = 16,
};

// ---- what is lent, each between guards

static struct lent {
    uint64_t indices[GUARD + WORDS + GUARD];
    uint16_t im[GUARD + PLACES + GUARD], zm[GUARD + PLACES + GUARD];
    uint8_t out[GUARD + BYTES + GUARD], numbers[GUARD + WORDS + GUARD];
} lent, was, walked;

static void fill(void) {
    for (size_t k = 0; k < sizeof lent; k++) ((unsigned char *)&lent)[k] = (unsigned char)chance();
    memcpy(&was, &lent, sizeof lent);
}

static int alike(const struct lent *a, const struct lent *b) { return memcmp(a, b, sizeof *a) == 0; }

// ---- a recording

static uint32_t words[WORDS + 1];
static uint8_t bytes[DEXTOLUMEN_PACKED_SIZE(WORDS + 1)];
static size_t length;

// A word that is often taken.
static uint32_t any_word(size_t place) {
    static const uint8_t commands[] = {1, 2, 3, 3, 4, 4, 4, 4, 5, 6, 8, 13};
    uint32_t word = place == 0 && below(8) ? 15 : below(6) == 0 ? below(16) : commands[below(sizeof commands)];
    for (unsigned k = 0; k < 4; k++) word = word << 4 | (k < 2 && below(8) ? 0 : below(16));
    return word;
}

// Such words, packed, and broken off anywhere; half of the recordings begin with INIT, both enables and a strip. A word more than is there gives the
// last half byte.
static void any_recording(void) {
    length = below(8) == 0 ? below(10) : below(BYTES + 1);
    for (size_t k = 0; k <= WORDS; k++) words[k] = any_word(k);
    if (below(2)) {
        words[0] = 0xF0000;
        words[1] = 0xE0004;
        words[2] = 0xD0006;
        words[3] = 0x50000 | (words[3] & 0xFFFF);
    }
    dextolumen_pack(words, WORDS + 1, bytes, sizeof bytes);
}

// ---- the walk

// Takes the words one by one over copies of the memories, and puts down what is kept and dropped.
static struct dextolumen_mended walk(void) {
    struct dextolumen_registers r = dextolumen_reset();
    struct dextolumen_mended told = {0, 0, 0, 0, 0};
    uint32_t kept[WORDS];
    size_t count = 0;
    memcpy(&walked, &was, sizeof walked);
    for (size_t k = 0; k < DEXTOLUMEN_WORDS_HELD(length); k++) {
        uint64_t refusal =
            dextolumen_step(&r, (uint8_t)(words[k] >> 16), (uint16_t)words[k], walked.im + GUARD, PLACES, walked.zm + GUARD, PLACES).refusal;
        if (refusal == DEXTOLUMEN_ACCEPTED) {
            kept[count++] = words[k];
        } else {
            walked.indices[GUARD + told.dropped] = k;
            walked.numbers[GUARD + told.dropped++] = (uint8_t)refusal;
        }
    }
    told.size = dextolumen_pack(kept, count, walked.out + GUARD, BYTES);
    told.cut = length % 5 == 1 ? 8 : length % 5 == 2 ? 16 : length % 5 == 4 ? 12 : 0;
    told.cleared = length % 5 == 3 && (bytes[length - 1] & 15) != 0;
    return told;
}

// ---- the calls

static struct dextolumen_mended mend(size_t size, size_t places, size_t reasons, size_t z_length) {
    return dextolumen_mend(bytes, length, lent.out + GUARD, size, lent.indices + GUARD, places, lent.numbers + GUARD, reasons,
                           lent.im + GUARD, PLACES, lent.zm + GUARD, z_length);
}

// A call that is refused: its number and nothing else, and nothing is touched.
static int refuses(struct dextolumen_mended a, uint64_t number) {
    return a.refusal == number && a.size == 0 && a.dropped == 0 && a.cut == 0 && a.cleared == 0 && alike(&lent, &was);
}

static const char *fault(struct dextolumen_mended told) {
    size_t size = told.size, dropped = told.dropped;
    if (!refuses(mend(size, dropped, dropped, PLACES - 1), DEXTOLUMEN_BAD_RECORD)) return "memories of unlike length";
    if (size != 0 && !refuses(mend(size - 1, dropped, dropped, PLACES), DEXTOLUMEN_NO_ROOM)) return "too little room for the stream";
    if (dropped != 0 && !refuses(mend(size, dropped - 1, dropped, PLACES), DEXTOLUMEN_NO_ROOM)) return "too little room for the indices";
    if (dropped != 0 && !refuses(mend(size, dropped, dropped - 1, PLACES), DEXTOLUMEN_NO_ROOM)) return "too little room for the numbers";
    struct dextolumen_mended a = mend(size, dropped, dropped, PLACES);
    if (memcmp(&a, &told, sizeof a) != 0) return "it tells something else";
    if (!alike(&lent, &walked)) return "it leaves something else";
    struct dextolumen_ended e = dextolumen_run(lent.out + GUARD, size, was.im + GUARD, PLACES, was.zm + GUARD, PLACES);
    if (e.refusal != DEXTOLUMEN_ACCEPTED) return "what it writes is refused";
    if (memcmp(was.im, lent.im, sizeof was.im) != 0 || memcmp(was.zm, lent.zm, sizeof was.zm) != 0) return "what it writes draws something else";
    return NULL;
}

int main(void) {
    uint64_t kept = 0, dropped = 0, drawn = 0, ends[5] = {0}, cleared = 0, listed[DEXTOLUMEN_NO_REGION + 1] = {0};
    for (unsigned k = 0; k < STREAMS; k++) {
        any_recording();
        fill();
        struct dextolumen_mended told = walk();
        drawn += memcmp(walked.im, was.im, sizeof was.im) != 0;
        const char *what = fault(told);
        if (what != NULL) {
            printf("mended: recording %u of %lu bytes: %s\n", k, (unsigned long)length, what);
            return 1;
        }
        kept += DEXTOLUMEN_WORDS_HELD(told.size);
        dropped += told.dropped;
        cleared += told.cleared;
        ends[length % 5]++;
        for (size_t d = 0; d < told.dropped; d++) listed[walked.numbers[GUARD + d] % (DEXTOLUMEN_NO_REGION + 1)]++;
    }
    for (unsigned number = 3; number <= DEXTOLUMEN_NO_REGION; number++)
        if (listed[number] == 0 && (number <= DEXTOLUMEN_NO_FIGURE || number == DEXTOLUMEN_NO_REGION)) {
            printf("mended: no word got %u\n", number);
            return 1;
        }
    for (unsigned end = 0; end < 5; end++)
        if (ends[end] == 0 || cleared == 0 || kept == 0 || drawn == 0) {
            printf("mended: recordings of one kind alone\n");
            return 1;
        }
    printf("mended: %u recordings, %lu words kept and %lu dropped, %lu half bytes cleared, %lu recordings that draw\n", STREAMS,
           (unsigned long)kept, (unsigned long)dropped, (unsigned long)cleared, (unsigned long)drawn);
    return fflush(stdout) != 0;
}
