/*
 * Dextolumen for a host program in C, from C99 on, or C++; x86-64 Linux. After `tools/install PREFIX`:
 *
 *     cc -O2 -o host host.c -IPREFIX/include -LPREFIX/lib -ldextolumen
 *     cc -O2 -o host host.c $(pkg-config --cflags --libs dextolumen)
 *
 * the second with PREFIX/lib/pkgconfig in PKG_CONFIG_PATH. Without an installation, `tools/archive` makes target/libdextolumen.a:
 *
 *     cc -O2 -o host host/host.c -Iinclude target/libdextolumen.a
 *
 * Each call is proved for every argument that its types allow. What nothing can check, the caller sees to:
 *
 *   - A pointer and the length after it are one lent array: so many elements, aligned as C aligns their type. No pointer is null, also
 *     where the length is 0; nothing is read or written through it then.
 *   - The I memory, the Z memory, the record, the stream, pictures, lists and every other lent output do not overlap, and nothing else writes to them
 *     during a call.
 *   - A record comes from dextolumen_reset or dextolumen_reset_tiled and the calls after it, so that nobody fills one in by hand. Any 94 bytes are a record
 *     all the same: one that breaks a bound is refused with DEXTOLUMEN_BAD_RECORD and left as it is. docs/REGISTERS.md has the bounds.
 *
 * The picture. Pixel (x, y) lies in both memories at place y * line + x, with the line length of the last accepted INIT, which is
 * `frame.line` of the record. x goes to the right and y upward: row 0 is the lowest. I is the intensity; z goes away from the observer, so that
 * less is nearer. Rows in use are the whole rows that both memories have room for, DEXTOLUMEN_MOST_ROWS at most. Pixels above them, or at or behind
 * the line length, are not drawn, and places above them are never touched. (At a pixel that is offered and does not pass, a call may store the number that
 * stands there already.) So it is from dextolumen_reset on; from dextolumen_reset_tiled on pixels
 * lie in tiles of four by four, at place (y / 4 * (line / 4) + x / 4) * 16 + y % 4 * 4 + x % 4, and rows in use are those of whole bands of four.
 *
 * What to lend at the start. Two memories of one length, I all 0 and Z all 65535, the farthest depth: INIT clears neither. Line lengths go from
 * 256 to 8768, so that R rows of any picture fit R * 8768 places (in tiles where 4 divides R), and R rows of line length 256 (INIT with data 0) fit R * 256. Any length
 * will do, 0 too: what has no place is not drawn.
 *
 * Threads and stack. A call allocates nothing, and keeps nothing but what is lent: no state of its own. So calls may run at the same time in
 * threads, each on memories, records and outputs of its own; what is only read may be shared. No call takes more than DEXTOLUMEN_STACK
 * bytes of the stack (measured, in host/threads.c).
 */
#ifndef DEXTOLUMEN_H
#define DEXTOLUMEN_H

#include <stddef.h>
#include <stdint.h>

#ifdef __cplusplus
extern "C" {
#endif

/* Of this header and of the library beside it: three numbers, and the same as one, 10000 * first + 100 * second + third. */
#define DEXTOLUMEN_VERSION "1.0.0"
#define DEXTOLUMEN_VERSION_NUMBER 10000

/* The most bytes of stack that a call takes. */
#define DEXTOLUMEN_STACK 8192

/* ---- the numbers that come back: the lowest that applies */

enum {
    DEXTOLUMEN_ACCEPTED = 0,      /* not refused */
    DEXTOLUMEN_BAD_COMMAND = 1,   /* the command is above 15; a word to be packed has more than 20 bits */
    DEXTOLUMEN_BAD_RECORD = 2,    /* two memories, or the pictures, differ in length, or the record breaks a bound */
    DEXTOLUMEN_NO_INIT = 3,       /* any word but INIT, or a read, before the first accepted INIT */
    DEXTOLUMEN_RESERVED = 4,      /* command 7 or C hex */
    DEXTOLUMEN_UNMODELLED = 5,    /* command A hex; AUX 11; on a board of several units, command 0 or 9 and a read */
    DEXTOLUMEN_AWAITS_PARM = 6,   /* a parameter is awaited, and it is a read or a word that is neither PARM nor INIT */
    DEXTOLUMEN_NO_PARM = 7,       /* PARM with none awaited */
    DEXTOLUMEN_BAD_AUX = 8,       /* AUX above 12 */
    DEXTOLUMEN_BAD_VALUE = 9,     /* a value that is not allowed */
    DEXTOLUMEN_NO_FIGURE = 10,    /* X or PX that fits no open figure */
    DEXTOLUMEN_BAD_LENGTH = 11,   /* the stream's length mod 5 is 1, 2 or 4 */
    DEXTOLUMEN_BAD_TAIL = 12,     /* the last half byte of an odd stream is not 0 */
    DEXTOLUMEN_PAST_LAST = 13,    /* the place asked for is past the last word */
    DEXTOLUMEN_NO_ROOM = 13,      /* what is lent is too short */
    DEXTOLUMEN_NO_REGION = 14     /* PTRN or a read, and no region is open that way: none, one that is used up, or one the other way */
};

/* Calls that answer one number answer this plus the number where they refuse. */
#define DEXTOLUMEN_REFUSED ((uint64_t)1 << 63)

/* The number that such an answer refuses with, or DEXTOLUMEN_ACCEPTED. */
static inline uint64_t dextolumen_refusal(uint64_t answer) {
    return (answer & DEXTOLUMEN_REFUSED) != 0 ? answer - DEXTOLUMEN_REFUSED : 0;
}

/* A number in words, for people. */
static inline const char *dextolumen_told_text(uint64_t number) {
    switch (number) {
    case DEXTOLUMEN_ACCEPTED: return "accepted";
    case DEXTOLUMEN_BAD_COMMAND: return "no such command, or a word of more than 20 bits";
    case DEXTOLUMEN_BAD_RECORD: return "memories or pictures of unlike length, or a record that breaks a bound";
    case DEXTOLUMEN_NO_INIT: return "no INIT was accepted before it";
    case DEXTOLUMEN_RESERVED: return "a reserved command";
    case DEXTOLUMEN_UNMODELLED: return "a command or subcommand that is not modelled";
    case DEXTOLUMEN_AWAITS_PARM: return "a parameter is awaited";
    case DEXTOLUMEN_NO_PARM: return "a parameter, and none is awaited";
    case DEXTOLUMEN_BAD_AUX: return "no such subcommand";
    case DEXTOLUMEN_BAD_VALUE: return "a value that is not allowed";
    case DEXTOLUMEN_NO_FIGURE: return "no figure is open that it fits";
    case DEXTOLUMEN_BAD_LENGTH: return "a length of no whole number of words";
    case DEXTOLUMEN_BAD_TAIL: return "a last half byte that is not 0";
    case DEXTOLUMEN_NO_ROOM: return "past the last word, or too little room";
    case DEXTOLUMEN_NO_REGION: return "no region is open that way, or it is used up";
    default: return "no such number";
    }
}

/* ---- how far the card reaches */

enum {
    DEXTOLUMEN_LARGEST_COORDINATE = 16383, /* of a vertex, and of a corner of a picture's region */
    DEXTOLUMEN_LARGEST_BORDER = 16384,     /* of the window, which is 0 to this both ways from INIT on */
    DEXTOLUMEN_MOST_ROWS = 16384           /* the rows in use, at most; later places are never touched */
};

/* ---- the register record */

/* A point with its numbers. */
struct dextolumen_vertex {
    uint16_t x, y, i, z;
};

/* The line length; and how pixels lie in both memories, 0 rows one after the other, 1 tiles of four by four, 2 to 7 what a unit of a board has. */
struct dextolumen_frame {
    uint16_t line, layout;
};

/* The words of PMODE, LMODE, ZCONTROL, HCONTROL, LSTATUS, TPATTERN, MASK and SECTION. LX sets lstatus to 0: a line starts visible. */
struct dextolumen_modes {
    uint16_t pmode, lmode, zcontrol, hcontrol, lstatus, transparency, planes, section;
};

/* The window; its borders belong to it. */
struct dextolumen_window {
    uint16_t left, top, right, bottom;
};

/* What lines of the modes 0 and 1 are drawn with: two colours, and the pattern's bits 31 to 16 and 15 to 0. */
struct dextolumen_dash {
    uint16_t foreground, background, high, low;
};

/* The I, Z and Y registers. */
struct dextolumen_latch {
    uint16_t i, z, y;
};

/* The open figure: 0 none, 1 a strip, 2 a fan, 3 a line; whether two vertices are kept, and they; of a line, its steps since LX modulo 32, and
   whether its last segment was visible and of mode 0 or 1. */
struct dextolumen_figure {
    uint16_t shape, pair;
    struct dextolumen_vertex first, second;
    uint16_t steps, dashed;
};

/* The AUX number whose parameters are awaited, 13 for none, 14 and 15 for IMG's; how many have come, and those. */
struct dextolumen_parked {
    uint16_t subcommand, came, values[5];
};

/* The region of a picture: 0 none, 1 to memory, 2 from memory; the first corner's column, the second corner, and the next pixel. */
struct dextolumen_region {
    uint16_t way, x0, x1, y1, x, y;
};

/* All registers. `started` is 1 once an INIT was accepted. */
struct dextolumen_registers {
    uint16_t started;
    struct dextolumen_frame frame;
    struct dextolumen_modes modes;
    struct dextolumen_window window;
    struct dextolumen_dash dash;
    struct dextolumen_latch latch;
    struct dextolumen_figure figure;
    struct dextolumen_parked parked;
    struct dextolumen_region region;
};

/* ---- answers */

/* The answer to a word: its number, and how many pixels passed (0 where it is refused). */
struct dextolumen_told {
    uint64_t refusal, passed;
};

/* The answer to a read: its number, and the pixel (0 where it is refused). */
struct dextolumen_seen {
    uint64_t refusal;
    uint16_t pixel;
};

/* How a run ended: its number; the index of the refused word, or how many words there are; the sum of the counts of the words before it,
   modulo 2^64; and the last record. */
struct dextolumen_ended {
    uint64_t refusal, index, sum;
    struct dextolumen_registers registers;
};

/* A board of so many units, 1, 2 or 4, and its registers, which are those of one chip: `frame.layout` stays 0. It comes from dextolumen_board_reset and the
   calls after it. Any 96 bytes are a board all the same: one of another number of units, of another layout or with a record that breaks a
   bound is refused with BAD_RECORD. */
struct dextolumen_board {
    uint16_t units;
    struct dextolumen_registers registers;
};

/* The answer to a reset: its number, and the board. */
struct dextolumen_board_started {
    uint64_t refusal;
    struct dextolumen_board board;
};

/* The answer of a board to a word: its number, how many pixels passed in all units (0 where it is refused), and the next board. */
struct dextolumen_board_reply {
    uint64_t refusal, passed;
    struct dextolumen_board board;
};

/* The answer of a board to a read: its number, the pixel (0 where it is refused), and the next board. */
struct dextolumen_board_seen {
    uint64_t refusal;
    uint16_t pixel;
    struct dextolumen_board board;
};

/* How a run over a board ended: as dextolumen_ended, with the last board. */
struct dextolumen_board_ended {
    uint64_t refusal, index, sum;
    struct dextolumen_board board;
};

/* What became of a damaged recording: the number that refused it; the length of the new stream; how many words were dropped; how many bits were
   cut from the end; and whether a closing half byte that was not 0 was cleared, 1 or 0. Refused, it tells its number and else 0. */
struct dextolumen_mended {
    uint64_t refusal, size, dropped, cut, cleared;
};

/* How far a packed stream in instalments has come, and the answer of each call on it: the number that refused a word or the end; the words
   run and the sum of their counts, both modulo 2^64; bits of a word that has not come whole, and how many they are (0, 4, 8, 12 or 16); 1
   once the end was told with no word refused before it, else 0 (a refused word closes it by its number alone); and the record. It comes from dextolumen_begin and the calls after it, which check its bounds
   (docs/CALLS.md) but cannot tell whether some stream leads to it. Compare its fields, not its bytes: there may be padding behind the last. */
struct dextolumen_intake {
    uint64_t refusal, index, sum;
    uint32_t held, count, over;
    struct dextolumen_registers registers;
};

/* ---- packed streams */

/* A word has 20 bits: its command is bits 19 to 16, its data bits 15 to 0. Two words are five bytes, and an odd one at the end is three. */

/* How many bytes so many words are packed into, and how many whole words so many bytes hold: what has to be lent. */
#define DEXTOLUMEN_PACKED_SIZE(words) ((words) / 2 * 5 + (words) % 2 * 3)
#define DEXTOLUMEN_WORDS_HELD(bytes) ((bytes) / 5 * 2 + (bytes) % 5 / 3)

/* Packs words over the front of `out`, and answers how many bytes they make. Or refused, and nothing is written: BAD_COMMAND where a word has more than
   20 bits, then NO_ROOM. */
uint64_t dextolumen_pack(const uint32_t *words, size_t count, uint8_t *out, size_t room);

/* Unpacks a stream over the front of `out`, and answers how many words it holds. Or refused, and nothing is written: BAD_LENGTH, BAD_TAIL, NO_ROOM. */
uint64_t dextolumen_unpack(const uint8_t *bytes, size_t length, uint32_t *out, size_t room);

/* How many words a packed stream holds; or refused: BAD_LENGTH, BAD_TAIL. */
uint64_t dextolumen_word_count(const uint8_t *bytes, size_t length);

/* The word at a place, counted from 0; or refused: those two, PAST_LAST. */
uint64_t dextolumen_word_at(const uint8_t *bytes, size_t length, size_t place);

/* ---- the card */

/* The record after reset, over memories of rows one after the other: pixel (x, y) is place y * line + x, and the whole rows that fit are in use. */
struct dextolumen_registers dextolumen_reset(void);

/* The record after reset, over memories in tiles of four by four: pixel (x, y) is place (y / 4 * (line / 4) + x / 4) * 16 + y % 4 * 4 + x % 4, and only
   whole bands of four rows are in use. The kind stays through INIT; every call on the record goes by it. */
struct dextolumen_registers dextolumen_reset_tiled(void);

/* Takes a word: updates the record where it stands, and draws into the two memories. A refused word changes none of them. */
struct dextolumen_told dextolumen_step(struct dextolumen_registers *registers, uint8_t command, uint16_t data, uint16_t *i_memory,
                                       size_t i_length, uint16_t *z_memory, size_t z_length);

/* Reads the region's pixel and moves the region on, in the record where it stands. A refused read (BAD_RECORD, NO_INIT,
   AWAITS_PARM, NO_REGION) gives pixel 0 and changes nothing. */
struct dextolumen_seen dextolumen_read(struct dextolumen_registers *registers, const uint16_t *i_memory, size_t i_length,
                                       const uint16_t *z_memory, size_t z_length);

/* Runs a packed stream from reset until a word is refused; words before it keep their effect. A stream that is refused as a whole
   (BAD_LENGTH, BAD_TAIL, BAD_RECORD, in that order) ends with index and sum 0, the record after reset and both memories untouched. */
struct dextolumen_ended dextolumen_run(const uint8_t *bytes, size_t length, uint16_t *i_memory, size_t i_length, uint16_t *z_memory,
                                       size_t z_length);

/* The same from dextolumen_reset_tiled, over memories in tiles. */
struct dextolumen_ended dextolumen_run_tiled(const uint8_t *bytes, size_t length, uint16_t *i_memory, size_t i_length, uint16_t *z_memory,
                                             size_t z_length);

/* ---- a board of one, two or four units */

/* Bigger consoles interleave columns: of N units, unit u has the pixels (x, y) with x mod N = u, in two memories of its own, at place
   y * (line / N) + x / N. Place p of one chip's memories is place p / N of unit p % N. Memories are lent for four units, in order, the I memory of each
   before its Z memory; those of units that the board lacks are neither looked at nor touched (lend some array, and length 0). All memories of
   the board's units have one length, else BAD_RECORD. */

/* A board of 1, 2 or 4 units after reset. Another number is refused with BAD_VALUE, and the answer has a board of one unit. */
struct dextolumen_board_started dextolumen_board_reset(uint64_t units);

/* Takes a word, gives it to every unit, and answers with the next board. INIT comes with unit 0 and the chips code of the board, 0, 1 or 2 for 1, 2 or 4
   units, else BAD_VALUE; commands 0 and 9 are UNMODELLED on more than one unit. Else a word gets the number that one chip gives it, and the count is
   what all units passed together. A refused word changes neither board nor memories. */
struct dextolumen_board_reply dextolumen_board_step(struct dextolumen_board board, uint8_t command, uint16_t data, uint16_t *i0, size_t i0_length,
                                                    uint16_t *z0, size_t z0_length, uint16_t *i1, size_t i1_length, uint16_t *z1,
                                                    size_t z1_length, uint16_t *i2, size_t i2_length, uint16_t *z2, size_t z2_length,
                                                    uint16_t *i3, size_t i3_length, uint16_t *z3, size_t z3_length);

/* Reads the region's pixel and moves the region on, on a board of one unit, as dextolumen_read does. On more it is refused: BAD_RECORD, NO_INIT,
   UNMODELLED, in that order. A refused read gives pixel 0 and the board as it was. */
struct dextolumen_board_seen dextolumen_board_read(struct dextolumen_board board, const uint16_t *i0, size_t i0_length, const uint16_t *z0,
                                                   size_t z0_length, const uint16_t *i1, size_t i1_length, const uint16_t *z1,
                                                   size_t z1_length, const uint16_t *i2, size_t i2_length, const uint16_t *z2,
                                                   size_t z2_length, const uint16_t *i3, size_t i3_length, const uint16_t *z3,
                                                   size_t z3_length);

/* Runs a packed stream from the reset of a board of so many units until a word is refused; words before it keep their effect. What is refused before
   the first word (BAD_VALUE for the number of units, then BAD_LENGTH, BAD_TAIL, BAD_RECORD) ends with index and sum 0, the board that
   dextolumen_board_reset answers, and all memories untouched. */
struct dextolumen_board_ended dextolumen_board_run(uint64_t units, const uint8_t *bytes, size_t length, uint16_t *i0, size_t i0_length,
                                                   uint16_t *z0, size_t z0_length, uint16_t *i1, size_t i1_length, uint16_t *z1,
                                                   size_t z1_length, uint16_t *i2, size_t i2_length, uint16_t *z2, size_t z2_length,
                                                   uint16_t *i3, size_t i3_length, uint16_t *z3, size_t z3_length);

/* ---- a packed stream in instalments */

/* Before the first byte, from dextolumen_reset: over memories of rows one after the other, as dextolumen_run is. (Over tiles, words are given to
   dextolumen_step one by one, on a record from dextolumen_reset_tiled.) */
struct dextolumen_intake dextolumen_begin(void);

/* Takes the next bytes, as few or as many as came, or none: words that are whole now are run. Lend the same memories each time. Before the
   end the answer has ACCEPTED, and the words run and their sum so far; or the number of the refused word, its index and the sum before
   it. After a refused word or the end, a call changes nothing and answers as before. An intake that breaks a bound (a number that neither
   a word nor the end gives, more or fewer bits than its words leave, words run before INIT), or has a record that does, is refused with
   BAD_RECORD, and nothing else changes. */
struct dextolumen_intake dextolumen_feed(struct dextolumen_intake intake, const uint8_t *bytes, size_t length, uint16_t *i_memory,
                                         size_t i_length, uint16_t *z_memory, size_t z_length);

/* The end is reached. Refused (BAD_LENGTH, BAD_TAIL, BAD_RECORD, in that order), it tells the words run and their sum. A stream that is not
   refused with the first two ends with the answer, record and memories of dextolumen_run. An intake that breaks a bound is refused as by
   dextolumen_feed. */
struct dextolumen_intake dextolumen_finish(struct dextolumen_intake intake, const uint16_t *i_memory, size_t i_length,
                                           const uint16_t *z_memory, size_t z_length);

/* ---- damaged recordings */

/* Mends a recording: its whole words run in order from dextolumen_reset over the two memories, rows one after the other, and those that are refused are dropped. The others, as a good
   stream, are written to the front of `out`, and of each dropped word its index in the recording and the number that refuses it to the fronts
   of `indices` and `numbers`. Refused (BAD_RECORD for memories of unlike length, then NO_ROOM for the stream or either list) it touches
   nothing. The new stream is no longer than the recording, and the lists no longer than DEXTOLUMEN_WORDS_HELD(length). */
struct dextolumen_mended dextolumen_mend(const uint8_t *bytes, size_t length, uint8_t *out, size_t out_length, uint64_t *indices,
                                         size_t indices_length, uint8_t *numbers, size_t numbers_length, uint16_t *i_memory, size_t i_length,
                                         uint16_t *z_memory, size_t z_length);

/* ---- what changed, for remote viewers */

/* A picture is the I memory, or its first rows, of a width from 1 to 256 and rows up to 256: width times rows places,
   rows one after the other (a memory in tiles is put into rows first). A square has 8 by 8 pixels and is
   told by its lower left corner, as one number: x is bits 15 to 0, y bits 31 to 16. Where squares are sent to another machine, that number is. */

/* Lists the squares in which two pictures differ, and answers how many there are, at most 1024. Each pixel that differs lies in exactly one of them.
   Or refused, and nothing is written: BAD_RECORD where the two lengths differ, BAD_VALUE where the size is not allowed or the lengths are not
   width times rows, NO_ROOM where the squares do not all fit. */
uint64_t dextolumen_squares(const uint16_t *before, size_t before_length, const uint16_t *after, size_t after_length, size_t width,
                            size_t rows, uint32_t *squares, size_t room);

/* Copies squares from a picture into a viewer's picture of the same size, as far as they are inside, and answers how many there are. A viewer that has
   the picture before, given the squares that are listed for it, then has the picture after; no place outside them changes. Or refused, and nothing
   changes: BAD_RECORD and BAD_VALUE as above; BAD_VALUE too where a number tells no square of the picture (a corner outside, or one of whose numbers
   8 does not divide). */
uint64_t dextolumen_copy_squares(const uint32_t *squares, size_t count, const uint16_t *after, size_t after_length, size_t width, size_t rows,
                                 uint16_t *view, size_t view_length);

/* ---- the layout, as the proved code has it; tested where the language has a test */

#if defined(__cplusplus)
#if __cplusplus >= 201103L
#define DEXTOLUMEN_SIZE(type, size, align) static_assert(sizeof(struct type) == (size) && alignof(struct type) == (align), #type)
#define DEXTOLUMEN_AT(type, field, offset) static_assert(offsetof(struct type, field) == (offset), #type "." #field)
#endif
#elif defined(__STDC_VERSION__) && __STDC_VERSION__ >= 201112L
#define DEXTOLUMEN_SIZE(type, size, align) _Static_assert(sizeof(struct type) == (size) && _Alignof(struct type) == (align), #type)
#define DEXTOLUMEN_AT(type, field, offset) _Static_assert(offsetof(struct type, field) == (offset), #type "." #field)
#endif

#ifdef DEXTOLUMEN_SIZE

DEXTOLUMEN_SIZE(dextolumen_registers, 94, 2);
DEXTOLUMEN_AT(dextolumen_registers, started, 0);
DEXTOLUMEN_AT(dextolumen_registers, frame.line, 2);
DEXTOLUMEN_AT(dextolumen_registers, frame.layout, 4);
DEXTOLUMEN_AT(dextolumen_registers, modes.pmode, 6);
DEXTOLUMEN_AT(dextolumen_registers, modes.lmode, 8);
DEXTOLUMEN_AT(dextolumen_registers, modes.zcontrol, 10);
DEXTOLUMEN_AT(dextolumen_registers, modes.hcontrol, 12);
DEXTOLUMEN_AT(dextolumen_registers, modes.lstatus, 14);
DEXTOLUMEN_AT(dextolumen_registers, modes.transparency, 16);
DEXTOLUMEN_AT(dextolumen_registers, modes.planes, 18);
DEXTOLUMEN_AT(dextolumen_registers, modes.section, 20);
DEXTOLUMEN_AT(dextolumen_registers, window.left, 22);
DEXTOLUMEN_AT(dextolumen_registers, window.top, 24);
DEXTOLUMEN_AT(dextolumen_registers, window.right, 26);
DEXTOLUMEN_AT(dextolumen_registers, window.bottom, 28);
DEXTOLUMEN_AT(dextolumen_registers, dash.foreground, 30);
DEXTOLUMEN_AT(dextolumen_registers, dash.background, 32);
DEXTOLUMEN_AT(dextolumen_registers, dash.high, 34);
DEXTOLUMEN_AT(dextolumen_registers, dash.low, 36);
DEXTOLUMEN_AT(dextolumen_registers, latch.i, 38);
DEXTOLUMEN_AT(dextolumen_registers, latch.z, 40);
DEXTOLUMEN_AT(dextolumen_registers, latch.y, 42);
DEXTOLUMEN_AT(dextolumen_registers, figure.shape, 44);
DEXTOLUMEN_AT(dextolumen_registers, figure.pair, 46);
DEXTOLUMEN_AT(dextolumen_registers, figure.first, 48);
DEXTOLUMEN_AT(dextolumen_registers, figure.second, 56);
DEXTOLUMEN_AT(dextolumen_registers, figure.steps, 64);
DEXTOLUMEN_AT(dextolumen_registers, figure.dashed, 66);
DEXTOLUMEN_AT(dextolumen_registers, parked.subcommand, 68);
DEXTOLUMEN_AT(dextolumen_registers, parked.came, 70);
DEXTOLUMEN_AT(dextolumen_registers, parked.values, 72);
DEXTOLUMEN_AT(dextolumen_registers, region.way, 82);
DEXTOLUMEN_AT(dextolumen_registers, region.x0, 84);
DEXTOLUMEN_AT(dextolumen_registers, region.x1, 86);
DEXTOLUMEN_AT(dextolumen_registers, region.y1, 88);
DEXTOLUMEN_AT(dextolumen_registers, region.x, 90);
DEXTOLUMEN_AT(dextolumen_registers, region.y, 92);
DEXTOLUMEN_SIZE(dextolumen_vertex, 8, 2);
DEXTOLUMEN_AT(dextolumen_vertex, x, 0);
DEXTOLUMEN_AT(dextolumen_vertex, y, 2);
DEXTOLUMEN_AT(dextolumen_vertex, i, 4);
DEXTOLUMEN_AT(dextolumen_vertex, z, 6);
DEXTOLUMEN_SIZE(dextolumen_told, 16, 8);
DEXTOLUMEN_AT(dextolumen_told, refusal, 0);
DEXTOLUMEN_AT(dextolumen_told, passed, 8);
DEXTOLUMEN_SIZE(dextolumen_seen, 16, 8);
DEXTOLUMEN_AT(dextolumen_seen, refusal, 0);
DEXTOLUMEN_AT(dextolumen_seen, pixel, 8);
DEXTOLUMEN_SIZE(dextolumen_ended, 120, 8);
DEXTOLUMEN_AT(dextolumen_ended, refusal, 0);
DEXTOLUMEN_AT(dextolumen_ended, index, 8);
DEXTOLUMEN_AT(dextolumen_ended, sum, 16);
DEXTOLUMEN_AT(dextolumen_ended, registers, 24);
DEXTOLUMEN_SIZE(dextolumen_intake, (36 + sizeof(struct dextolumen_registers) + 7) / 8 * 8, 8);
DEXTOLUMEN_AT(dextolumen_intake, refusal, 0);
DEXTOLUMEN_AT(dextolumen_intake, index, 8);
DEXTOLUMEN_AT(dextolumen_intake, sum, 16);
DEXTOLUMEN_AT(dextolumen_intake, held, 24);
DEXTOLUMEN_AT(dextolumen_intake, count, 28);
DEXTOLUMEN_AT(dextolumen_intake, over, 32);
DEXTOLUMEN_AT(dextolumen_intake, registers, 36);
DEXTOLUMEN_SIZE(dextolumen_board, 96, 2);
DEXTOLUMEN_AT(dextolumen_board, units, 0);
DEXTOLUMEN_AT(dextolumen_board, registers, 2);
DEXTOLUMEN_SIZE(dextolumen_board_started, 104, 8);
DEXTOLUMEN_AT(dextolumen_board_started, refusal, 0);
DEXTOLUMEN_AT(dextolumen_board_started, board, 8);
DEXTOLUMEN_SIZE(dextolumen_board_reply, 112, 8);
DEXTOLUMEN_AT(dextolumen_board_reply, refusal, 0);
DEXTOLUMEN_AT(dextolumen_board_reply, passed, 8);
DEXTOLUMEN_AT(dextolumen_board_reply, board, 16);
DEXTOLUMEN_SIZE(dextolumen_board_seen, 112, 8);
DEXTOLUMEN_AT(dextolumen_board_seen, refusal, 0);
DEXTOLUMEN_AT(dextolumen_board_seen, pixel, 8);
DEXTOLUMEN_AT(dextolumen_board_seen, board, 10);
DEXTOLUMEN_SIZE(dextolumen_board_ended, 120, 8);
DEXTOLUMEN_AT(dextolumen_board_ended, refusal, 0);
DEXTOLUMEN_AT(dextolumen_board_ended, index, 8);
DEXTOLUMEN_AT(dextolumen_board_ended, sum, 16);
DEXTOLUMEN_AT(dextolumen_board_ended, board, 24);
DEXTOLUMEN_SIZE(dextolumen_mended, 40, 8);
DEXTOLUMEN_AT(dextolumen_mended, refusal, 0);
DEXTOLUMEN_AT(dextolumen_mended, size, 8);
DEXTOLUMEN_AT(dextolumen_mended, dropped, 16);
DEXTOLUMEN_AT(dextolumen_mended, cut, 24);
DEXTOLUMEN_AT(dextolumen_mended, cleared, 32);

#undef DEXTOLUMEN_SIZE
#undef DEXTOLUMEN_AT

#endif

#ifdef __cplusplus
}
#endif

#endif
