// Functions of which tools/divisions knows what `loops` must say of them, compiled by the kit's clang. A function whose name begins with
// `divides` has a loop that divides each time round, and the others have none.
typedef unsigned short u16;
typedef unsigned long long u64;

// a division a pixel, by a number that is not known before
void divides_each(u16 *to, const u16 *by, u64 n, u64 all) {
    for (u64 k = 0; k < n; k++) to[k] = (u16)(all / (by[k] + 1u));
}

// the same of signed numbers of 32 bits
void divides_signed(u16 *to, const int *by, u64 n, int all) {
    for (u64 k = 0; k < n; k++) to[k] = (u16)(all % (by[k] | 1));
}

// the same of floating numbers
void divides_floating(u16 *to, const double *by, u64 n, double all) {
    for (u64 k = 0; k < n; k++) to[k] = (u16)(int)(all / by[k]);
}

// only where a pixel passes
void divides_some(u16 *to, const u16 *depth, u64 n, u64 all, u64 z) {
    for (u64 k = 0; k < n; k++) {
        if (z < depth[k]) to[k] = (u16)(all / (z + k + 1));
    }
}

__attribute__((noinline)) static u64 shared(u64 all, u64 by) { return all / (by + 1); }

// in a function that the loop calls
void divides_by_call(u16 *to, const u64 *by, u64 n, u64 all) {
    for (u64 k = 0; k < n; k++) to[k] = (u16)shared(all, by[k]);
}

// a loop of its own skips what does not pass, so that the dividing loop is one around another
void divides_around(u16 *to, const u16 *depth, u64 n, u64 all, u16 z) {
    u64 k = 0;
    while (k < n) {
        while (k < n && depth[k] <= z) k++;
        if (k < n) to[k] = (u16)(all / (depth[k] - (u64)z));
        k++;
    }
}

// each row divides, and its pixels do not
void row_divides(u16 *to, const u16 *by, u64 rows, u64 width, u64 all) {
    for (u64 y = 0; y < rows; y++) {
        u64 i = all / (by[y] + 1u);
        u64 add = all % (by[y] + 1u);
        for (u64 x = 0; x < width; x++) {
            if (i < to[y * width + x]) to[y * width + x] = (u16)i;
            i += add;
        }
    }
}

__attribute__((noinline)) static void row(u16 *to, u64 width, u64 i, u64 add, u64 by) {
    i = i / (by + 1);
    for (u64 x = 0; x < width; x++) {
        if (i < to[x]) to[x] = (u16)i;
        i += add;
    }
}

// the same by a call; what this loop calls has a loop inside, so it is one around another
void row_divides_by_call(u16 *to, const u64 *by, u64 rows, u64 width, u64 all) {
    for (u64 y = 0; y < rows; y++) row(to + y * width, width, all, 3, by[y]);
}

// one pixel a word, besides words that divide and draw
void word_divides(u16 *to, const u16 *words, u64 n, u64 all) {
    for (u64 k = 0; k < n; k++) {
        switch (words[k] & 7) {
        case 0: to[words[k]] = 7; break;
        case 1: row(to, words[k], all, 3, k); break;
        case 2: all /= words[k] + k; break;
        case 3: to[2 * k] = 5; break;
        case 4: all += 3; break;
        case 5: all ^= words[k]; break;
        default: to[0] = (u16)k;
        }
    }
}

// a constant divisor is multiplied by its inverse, and a power of two is shifted away
void constant_divisor(u16 *to, u64 n) {
    for (u64 k = 0; k < n; k++) to[k] = (u16)(k / 10 + k % 32);
}

#ifdef ROUTINE
// numbers of 128 bits are divided by a routine that is not in the file
void calls_routine(u16 *to, const u64 *by, u64 n, unsigned __int128 all) {
    for (u64 k = 0; k < n; k++) to[k] = (u16)(all / by[k]);
}
#endif
