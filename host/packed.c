// Words packed and unpacked through the entries: words of 20 bits and some of more, room that is just enough, more, and a place too little, streams
// that are whole and damaged. A stream's bits are held to its words one by one, everything lent stands between guards, and a refused call changes
// nothing. Stops at the first fault with status 1.
// usage: packed
#include "chance.h"
#include <dextolumen.h>
#include <stdio.h>
#include <string.h>

enum { LISTS = 5000, WORDS = 40, GUARD = 8 };

static struct lent {
    uint32_t words[GUARD + WORDS + GUARD];
    uint8_t bytes[GUARD + DEXTOLUMEN_PACKED_SIZE(WORDS) + 1 + GUARD];
} lent, was;

static uint64_t told_by[DEXTOLUMEN_NO_REGION + 1];

static uint32_t words[WORDS];
static size_t count;

static void fill(void) {
    for (size_t k = 0; k < sizeof lent; k++) ((unsigned char *)&lent)[k] = (unsigned char)chance();
    memcpy(&was, &lent, sizeof lent);
}

// Whether an answer refuses with a number, and nothing has changed.
static int refuses(uint64_t answer, uint64_t number) {
    told_by[number]++;
    return answer == DEXTOLUMEN_REFUSED + number && dextolumen_refusal(answer) == number && memcmp(&lent, &was, sizeof lent) == 0;
}

// Bit k of a stream, the most significant of its first byte first.
static unsigned bit(const uint8_t *bytes, size_t k) { return bytes[k / 8] >> (7 - k % 8) & 1u; }

// ---- the calls

// A list of words, packed into the room that it needs and some more.
static const char *packing_fault(size_t more) {
    uint8_t *out = lent.bytes + GUARD;
    size_t size = DEXTOLUMEN_PACKED_SIZE(count);
    if (size != 0 && !refuses(dextolumen_pack(words, count, out, size - 1), DEXTOLUMEN_NO_ROOM)) return "too little room for a stream";
    if (dextolumen_pack(words, count, out, size + more) != size) return "it tells another length";
    for (size_t k = 0; k < 8 * size; k++)
        if (bit(out, k) != (k < 20 * count ? words[k / 20] >> (19 - k % 20) & 1u : 0)) return "a bit of the stream is another";
    memcpy(was.bytes + GUARD, out, size);
    return memcmp(&lent, &was, sizeof lent) == 0 ? NULL : "packing changed a place outside the stream";
}

// The stream that was packed, unpacked again.
static const char *unpacking_fault(size_t more) {
    const uint8_t *bytes = was.bytes + GUARD;
    uint32_t *out = lent.words + GUARD;
    size_t size = DEXTOLUMEN_PACKED_SIZE(count);
    if (DEXTOLUMEN_WORDS_HELD(size) != count || dextolumen_word_count(bytes, size) != count) return "it holds another number of words";
    if (count != 0 && !refuses(dextolumen_unpack(bytes, size, out, count - 1), DEXTOLUMEN_NO_ROOM)) return "too little room for the words";
    if (dextolumen_unpack(bytes, size, out, count + more) != count) return "it tells another number of words";
    for (size_t k = 0; k < count; k++)
        if (out[k] != words[k] || dextolumen_word_at(bytes, size, k) != words[k]) return "a word is another";
    memcpy(was.words + GUARD, out, count * sizeof *out);
    told_by[DEXTOLUMEN_ACCEPTED]++;
    return memcmp(&lent, &was, sizeof lent) == 0 ? NULL : "unpacking changed a place outside the words";
}

// The same stream, damaged: a byte too short or too long, or something in its last half byte. Refused before the room is looked at.
static const char *damage_fault(void) {
    uint8_t bytes[DEXTOLUMEN_PACKED_SIZE(WORDS) + 1] = {0};
    size_t size = DEXTOLUMEN_PACKED_SIZE(count);
    memcpy(bytes, lent.bytes + GUARD, size);
    if (!refuses(dextolumen_unpack(bytes, size + 1, lent.words + GUARD, 0), DEXTOLUMEN_BAD_LENGTH)) return "a byte too many is taken";
    if (size != 0 && !refuses(dextolumen_unpack(bytes, size - 1, lent.words + GUARD, 0), DEXTOLUMEN_BAD_LENGTH)) return "a byte too few is taken";
    if (count % 2 == 0) return NULL;
    bytes[size - 1] |= (uint8_t)(1u << below(4));
    if (!refuses(dextolumen_unpack(bytes, size, lent.words + GUARD, 0), DEXTOLUMEN_BAD_TAIL)) return "a last half byte is taken";
    return NULL;
}

// A word too large anywhere is refused, also where there is no room.
static const char *large_fault(void) {
    size_t at = below((unsigned)count);
    uint32_t word = words[at];
    words[at] |= (uint32_t)1 << (20 + below(12));
    int fine = refuses(dextolumen_pack(words, count, lent.bytes + GUARD, below(2) ? 0 : DEXTOLUMEN_PACKED_SIZE(count)), DEXTOLUMEN_BAD_COMMAND);
    words[at] = word;
    return fine ? NULL : "a word of more than 20 bits is taken";
}

static const char *fault(void) {
    size_t more = below(2);
    const char *what = count != 0 ? large_fault() : NULL;
    if (what == NULL) what = packing_fault(more);
    if (what == NULL) what = unpacking_fault(more);
    if (what == NULL) what = damage_fault();
    return what;
}

int main(void) {
    static const uint8_t numbers[] = {DEXTOLUMEN_ACCEPTED, DEXTOLUMEN_BAD_COMMAND, DEXTOLUMEN_BAD_LENGTH, DEXTOLUMEN_BAD_TAIL, DEXTOLUMEN_NO_ROOM};
    uint64_t all = 0;
    for (unsigned k = 0; k < LISTS; k++) {
        count = below(WORDS + 1);
        for (size_t at = 0; at < count; at++) words[at] = (uint32_t)(chance() & 0xFFFFF);
        fill();
        const char *what = fault();
        if (what != NULL) {
            printf("packed: list %u of %lu words: %s\n", k, (unsigned long)count, what);
            return 1;
        }
        all += count;
    }
    for (size_t k = 0; k < sizeof numbers; k++)
        if (told_by[numbers[k]] == 0) {
            printf("packed: no call got %u, %s\n", numbers[k], dextolumen_told_text(numbers[k]));
            return 1;
        }
    printf("packed: %u lists, %lu words, there and back\n", LISTS, (unsigned long)all);
    return fflush(stdout) != 0;
}
