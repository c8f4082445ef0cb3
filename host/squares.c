// Lists and copies squares as told: reads cases from standard input (`second squares` writes them) and prints what the two calls answer for each, a line a
// call. What a call must leave alone is looked at too: a refused call's output, the room behind the list, and guards behind that and behind
// the view. Ends with status 1 where the input breaks off.
// usage: squares < CASES
#include <dextolumen.h>
#include <stdio.h>
#include <stdlib.h>
#include <string.h>

// A case is seven numbers of 32 bits: width, rows, room, and the lengths of the picture before, of that after, of the view and of the list to be copied;
// then the three pictures, 16 bits a place, and the list, 32 bits a square. All are stored with the more significant byte first.
enum { PLACES = 70000, SQUARES = 3000, GUARD = 16 };

static uint16_t before[PLACES], after[PLACES], view[PLACES + GUARD], view_was[PLACES + GUARD];
static uint32_t list[SQUARES], out[SQUARES + GUARD];

_Noreturn static void fault(const char *what) {
    printf("squares: %s\n", what);
    fflush(stdout);
    exit(1);
}

// ---- reading

static uint32_t number(void) {
    uint8_t byte[4];
    if (fread(byte, 1, 4, stdin) != 4) fault("the cases break off");
    return (uint32_t)byte[0] << 24 | (uint32_t)byte[1] << 16 | (uint32_t)byte[2] << 8 | byte[3];
}

static size_t count(size_t most) {
    size_t n = number();
    if (n > most) fault("a case is too large");
    return n;
}

static void picture(uint16_t *place, size_t n) {
    static uint8_t byte[2 * PLACES];
    if (fread(byte, 2, n, stdin) != n) fault("the cases break off");
    for (size_t at = 0; at < n; at++) place[at] = (uint16_t)(byte[2 * at] << 8 | byte[2 * at + 1]);
}

// ---- the calls

static void print_refused(unsigned k, const char *call, uint64_t answer) {
    printf("case %u: %s: refused with %lu\n", k, call, (unsigned long)(answer - DEXTOLUMEN_REFUSED));
}

static void print_listed(unsigned k, size_t nb, size_t na, size_t width, size_t rows, size_t room) {
    for (size_t at = 0; at < room + GUARD; at++) out[at] = 0xDEADBEEF;
    uint64_t answer = dextolumen_squares(before, nb, after, na, width, rows, out, room);
    size_t written = answer & DEXTOLUMEN_REFUSED ? 0 : answer;
    for (size_t at = written; at < room + GUARD; at++)
        if (out[at] != 0xDEADBEEF) fault("a place beyond the list changed");
    if (answer & DEXTOLUMEN_REFUSED) {
        print_refused(k, "listed", answer);
        return;
    }
    printf("case %u: listed:", k);
    for (size_t at = 0; at < written; at++) printf(" (%u,%u)", out[at] & 65535, out[at] >> 16);
    printf("\n");
}

// FNV-1a of 64 bits, of the numbers with the more significant byte first.
static uint64_t checksum(const uint16_t *place, size_t n) {
    uint64_t sum = UINT64_C(0xcbf29ce484222325);
    for (size_t at = 0; at < n; at++) {
        sum = (sum ^ (place[at] >> 8)) * UINT64_C(0x100000001b3);
        sum = (sum ^ (place[at] & 255)) * UINT64_C(0x100000001b3);
    }
    return sum;
}

static void print_copied(unsigned k, size_t nl, size_t na, size_t width, size_t rows, size_t nv) {
    for (size_t at = nv; at < nv + GUARD; at++) view[at] = 0xABCD;
    memcpy(view_was, view, (nv + GUARD) * sizeof *view);
    uint64_t answer = dextolumen_copy_squares(list, nl, after, na, width, rows, view, nv);
    if (memcmp(view + nv, view_was + nv, GUARD * sizeof *view) != 0) fault("a place beyond the view changed");
    if (answer & DEXTOLUMEN_REFUSED) {
        if (memcmp(view, view_was, nv * sizeof *view) != 0) fault("refused, and the view changed");
        print_refused(k, "copied", answer);
        return;
    }
    printf("case %u: copied: %lu, view %016lx\n", k, (unsigned long)answer, (unsigned long)checksum(view, nv));
}

int main(void) {
    uint32_t cases = number();
    for (unsigned k = 0; k < cases; k++) {
        size_t width = number(), rows = number(), room = count(SQUARES);
        size_t nb = count(PLACES), na = count(PLACES), nv = count(PLACES), nl = count(SQUARES);
        picture(before, nb);
        picture(after, na);
        picture(view, nv);
        for (size_t at = 0; at < nl; at++) list[at] = number();
        print_listed(k, nb, na, width, rows, room);
        print_copied(k, nl, na, width, rows, nv);
    }
    return fflush(stdout) != 0;
}
