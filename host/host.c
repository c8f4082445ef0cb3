// A host for the card: reads a recording from standard input, draws it, and prints what the drawing program prints (document 01,
// "Examples").
// usage: host < RECORDING        word by word
//        host run < RECORDING    the whole recording in one call
//        host slow < RECORDING   in instalments of a few bytes
#include "feed.h"
#include <stdio.h>
#include <string.h>

enum { LIMIT = 8192, PLACES = 8192 };

static uint8_t bytes[LIMIT + 1]; // one byte more than a recording may have tells that it is too long
static uint16_t im[PLACES], zm[PLACES];

// The text of a run: its three numbers, then each place with I not 0.
static void print(struct dextolumen_ended e) {
    unsigned line = e.registers.frame.line;
    printf("words %lu refusal %lu passed %lu\n", (unsigned long)e.index, (unsigned long)e.refusal, (unsigned long)e.sum);
    for (unsigned at = 0; at < PLACES; at++)
        if (im[at] != 0) printf("%u %u %u %u\n", at % line, at / line, im[at], zm[at]);
}

int main(int argc, char **argv) {
    int whole = argc == 2 && strcmp(argv[1], "run") == 0;
    int slow = argc == 2 && strcmp(argv[1], "slow") == 0;
    if (argc != 1 && !whole && !slow) {
        fprintf(stderr, "usage: host [run | slow] < RECORDING\n");
        return 2;
    }
    size_t length = fread(bytes, 1, sizeof bytes, stdin);
    if (ferror(stdin)) {
        fprintf(stderr, "host: standard input\n");
        return 1;
    }
    if (length > LIMIT) {
        printf("too long\n");
    } else {
        for (size_t at = 0; at < PLACES; at++) zm[at] = 65535;
        print((whole ? dextolumen_run : slow ? trickle : feed)(bytes, length, im, PLACES, zm, PLACES));
    }
    if (fflush(stdout) != 0) {
        fprintf(stderr, "host: standard output\n");
        return 1;
    }
    return 0;
}
