// Takes recordings in instalments that are given on standard input, and prints what each call tells: the number, the words run and the sum
// of their counts. `second cuts` makes the input and what is to be printed for it (second/src/cuts.rs).
// usage: cuts < INSTALMENTS
//
// A stream is how many instalments it has, and each of them with its length before it; such a number is two bytes, the more significant
// first. It is drawn on a fresh picture. After the end, the first instalment and the end come once more; then the line length and a checksum
// of both memories are printed (FNV-1a of 64 bits over I and Z of each place, the more significant byte first).
#include <dextolumen.h>
#include <stdio.h>
#include <stdlib.h>

enum { PLACES = 8192, LONGEST = 65535 };

static uint16_t im[PLACES], zm[PLACES];
static uint8_t first[LONGEST], part[LONGEST];

_Noreturn static void fail(const char *what) {
    fprintf(stderr, "cuts: %s\n", what);
    exit(1);
}

static void read_bytes(uint8_t *to, size_t length) {
    if (fread(to, 1, length, stdin) != length) fail("the input ends within a stream");
}

static size_t number(void) {
    uint8_t two[2];
    read_bytes(two, 2);
    return (size_t)two[0] << 8 | two[1];
}

static void print(const char *name, const struct dextolumen_intake *s) {
    printf("%s%lu %lu %lu\n", name, (unsigned long)s->refusal, (unsigned long)s->index, (unsigned long)s->sum);
}

static uint64_t checksum(void) {
    uint64_t sum = UINT64_C(0xcbf29ce484222325);
    for (size_t at = 0; at < 2 * PLACES; at++) {
        uint16_t n = at % 2 ? zm[at / 2] : im[at / 2];
        sum = (sum ^ n >> 8) * UINT64_C(0x100000001b3);
        sum = (sum ^ (n & 255)) * UINT64_C(0x100000001b3);
    }
    return sum;
}

static void stream(size_t parts) {
    struct dextolumen_intake s = dextolumen_begin();
    size_t again = 0;
    for (size_t at = 0; at < PLACES; at++) im[at] = 0, zm[at] = 65535;
    for (size_t k = 0; k < parts; k++) {
        size_t length = number();
        uint8_t *to = k == 0 ? first : part;
        read_bytes(to, length);
        if (k == 0) again = length;
        s = dextolumen_feed(s, to, length, im, PLACES, zm, PLACES);
        print("", &s);
    }
    s = dextolumen_finish(s, im, PLACES, zm, PLACES);
    print("end ", &s);
    s = dextolumen_feed(s, first, again, im, PLACES, zm, PLACES);
    print("again ", &s);
    s = dextolumen_finish(s, im, PLACES, zm, PLACES);
    print("again ", &s);
    printf("line %u memories %016lx\n", s.registers.frame.line, (unsigned long)checksum());
}

int main(void) {
    uint8_t two[2];
    size_t got;
    while ((got = fread(two, 1, 2, stdin)) == 2) {
        printf("stream\n");
        stream((size_t)two[0] << 8 | two[1]);
    }
    if (ferror(stdin)) fail("standard input");
    if (got != 0) fail("the input ends within a stream");
    if (fflush(stdout) != 0) fail("standard output");
    return 0;
}
