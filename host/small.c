/* The smallest host: document 01's example, packed from its words, run in one call and printed. It is C from C99 on, and C++ too.
   usage: small */
#include <dextolumen.h>
#ifdef __cplusplus
extern "C" {
#endif
#include <stdio.h>
#ifdef __cplusplus
}
#endif

enum { LINE = 256, ROWS = 16, PLACES = LINE * ROWS };

static uint16_t im[PLACES], zm[PLACES];

int main(void) {
    static const uint32_t words[] = {0xF0000, 0xE0004, 0xD0006, 0x10064, 0x2000A, 0x30000, 0x50000, 0x100C8, 0x30000, 0x40002, 0x1012C, 0x30002, 0x40000};
    enum { WORDS = sizeof words / sizeof *words };
    uint8_t bytes[DEXTOLUMEN_PACKED_SIZE(WORDS)];
    uint64_t length = dextolumen_pack(words, WORDS, bytes, sizeof bytes);
    struct dextolumen_ended e;
    unsigned at;
    if (dextolumen_refusal(length) != DEXTOLUMEN_ACCEPTED) {
        fprintf(stderr, "small: %s\n", dextolumen_told_text(dextolumen_refusal(length)));
        return 1;
    }
    for (at = 0; at < PLACES; at++) zm[at] = 65535; /* the farthest; im is all 0 */
    e = dextolumen_run(bytes, length, im, PLACES, zm, PLACES);
    printf("dextolumen %s, %lu words: %s, and %lu pixels passed\n", DEXTOLUMEN_VERSION, (unsigned long)e.index, dextolumen_told_text(e.refusal),
           (unsigned long)e.sum);
    for (at = 0; at < PLACES; at++)
        if (im[at] != 0) printf("%u %u %u %u\n", at % LINE, at / LINE, im[at], zm[at]);
    return fflush(stdout) != 0;
}
