/* usage: speed PLACES RUNS < RECORDING: runs the recording from reset over memories of so many places, RUNS times, and prints how many words it has, how
   many pixels passed, and the least nanoseconds of processor time that a run took. For web/speed. */
#include "dextolumen.h"
#include <stdio.h>
#include <stdlib.h>
#include <time.h>

/* The call as the LLVM module has it: the answer's place comes first. The C conventions of other machines than x86-64 hand it over elsewhere. */
void *run_into(struct dextolumen_ended *ended, const uint8_t *bytes, size_t length, uint16_t *i, size_t i_length, uint16_t *z, size_t z_length)
    __asm__("dextolumen_run");

static uint64_t now(void) {
    struct timespec t;
    clock_gettime(CLOCK_PROCESS_CPUTIME_ID, &t);
    return (uint64_t)t.tv_sec * 1000000000 + (uint64_t)t.tv_nsec;
}

int main(int count, char **words) {
    if (count != 3) return 2;
    size_t places = strtoul(words[1], 0, 10), length, least = (size_t)-1;
    uint8_t *bytes = malloc(1 << 24);
    uint16_t *i = malloc(2 * places), *z = malloc(2 * places);
    if (!bytes || !i || !z) return 1;
    length = fread(bytes, 1, 1 << 24, stdin);
    struct dextolumen_ended ended;
    for (int run = atoi(words[2]); run > 0; run--) {
        for (size_t p = 0; p < places; p++) i[p] = 0, z[p] = 65535;
        uint64_t from = now();
        run_into(&ended, bytes, length, i, places, z, places);
        uint64_t took = now() - from;
        if (took < least) least = took;
    }
    printf("%llu %llu %zu\n", (unsigned long long)ended.index, (unsigned long long)ended.sum, least);
    return 0;
}
