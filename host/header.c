/* What the header has by itself, for every form of C from C99 on and of C++: tools/header-test compiles this file in each. Each array has a size of -1, and
   does not compile, where a macro is wrong. */
#include <dextolumen.h>

typedef char none_packed[DEXTOLUMEN_PACKED_SIZE(0) == 0 && DEXTOLUMEN_WORDS_HELD(0) == 0 ? 1 : -1];
typedef char one_packed[DEXTOLUMEN_PACKED_SIZE(1) == 3 && DEXTOLUMEN_WORDS_HELD(3) == 1 ? 1 : -1];
typedef char two_packed[DEXTOLUMEN_PACKED_SIZE(2) == 5 && DEXTOLUMEN_WORDS_HELD(5) == 2 ? 1 : -1];
typedef char three_packed[DEXTOLUMEN_PACKED_SIZE(1 + 2) == 8 && DEXTOLUMEN_WORDS_HELD(4 + 4) == 3 ? 1 : -1];
typedef char partly_held[DEXTOLUMEN_WORDS_HELD(2) == 0 && DEXTOLUMEN_WORDS_HELD(4) == 1 && DEXTOLUMEN_WORDS_HELD(7) == 2 ? 1 : -1];
typedef char versions[DEXTOLUMEN_VERSION_NUMBER >= 10000 ? 1 : -1];

#if DEXTOLUMEN_VERSION_NUMBER < 10000
#error "the version is no number for the preprocessor"
#endif

/* Each declared call, with the types that a host gives it. Nobody runs this. */
uint64_t calls(struct dextolumen_registers *r, const uint8_t *bytes, uint8_t *out, uint32_t *words, uint64_t *indices, uint16_t *im, uint16_t *zm, size_t n);

uint64_t calls(struct dextolumen_registers *r, const uint8_t *bytes, uint8_t *out, uint32_t *words, uint64_t *indices, uint16_t *im, uint16_t *zm, size_t n) {
    struct dextolumen_intake s = dextolumen_begin();
    uint64_t sum = dextolumen_pack(words, n, out, n) + dextolumen_unpack(bytes, n, words, n) + dextolumen_word_count(bytes, n);
    sum += dextolumen_word_at(bytes, n, 0) + dextolumen_squares(im, n, zm, n, 1, n, words, n) + dextolumen_copy_squares(words, n, im, n, 1, n, zm, n);
    *r = dextolumen_reset();
    *r = dextolumen_reset_tiled();
    sum += dextolumen_step(r, 15, 0, im, n, zm, n).refusal + dextolumen_read(r, im, n, zm, n).pixel + dextolumen_run(bytes, n, im, n, zm, n).index;
    sum += dextolumen_run_tiled(bytes, n, im, n, zm, n).index;
    sum += dextolumen_board_run(dextolumen_board_reset(2).board.units, bytes, n, im, n, zm, n, im, n, zm, n, im, n, zm, n, im, n, zm, n).index;
    sum += dextolumen_board_step(dextolumen_board_reset(4).board, 15, 0, im, n, zm, n, im, n, zm, n, im, n, zm, n, im, n, zm, n).passed;
    sum += dextolumen_board_read(dextolumen_board_reset(1).board, im, n, zm, n, im, n, zm, n, im, n, zm, n, im, n, zm, n).pixel;
    s = dextolumen_feed(s, bytes, n, im, n, zm, n);
    s = dextolumen_finish(s, im, n, zm, n);
    sum += dextolumen_mend(bytes, n, out, n, indices, n, out, n, im, n, zm, n).size;
    return sum + s.index + (uint64_t)dextolumen_told_text(dextolumen_refusal(sum))[0];
}
