// Words and reads as text, for comparing with the second program. A line of standard input is a word of five hexadecimal digits, `read`, `tiled`
// or `end`. A word prints its refusal and its count, a read its refusal and the pixel; a word that is refused is passed over. `end` prints each
// place with I not 0, as the drawing program does; what follows is from reset, over a fresh picture, and
// after `tiled` from the reset that chooses tiles.
// usage: reads < TEXT
#include <dextolumen.h>
#include <stdio.h>
#include <string.h>

enum { PLACES = 8192 };

static struct dextolumen_registers registers;
static uint16_t im[PLACES], zm[PLACES];

static void begin(struct dextolumen_registers start) {
    registers = start;
    for (size_t at = 0; at < PLACES; at++) im[at] = 0, zm[at] = 65535;
}

static void end(void) {
    unsigned line = registers.frame.line;
    for (unsigned at = 0; at < PLACES; at++)
        if (im[at] != 0) printf("%u %u %u %u\n", at % line, at / line, im[at], zm[at]);
    begin(dextolumen_reset());
}

static void read_pixel(void) {
    struct dextolumen_seen seen = dextolumen_read(&registers, im, PLACES, zm, PLACES);
    printf("read %lu %u\n", (unsigned long)seen.refusal, seen.pixel);
}

static void take(uint32_t word) {
    struct dextolumen_told told = dextolumen_step(&registers, (uint8_t)(word >> 16), (uint16_t)word, im, PLACES, zm, PLACES);
    printf("%lu %lu\n", (unsigned long)told.refusal, (unsigned long)told.passed);
}

// The value of a hexadecimal digit, or 16.
static uint32_t digit(char c) {
    return c >= '0' && c <= '9' ? (uint32_t)(c - '0') : c >= 'A' && c <= 'F' ? (uint32_t)(c - 'A' + 10) : 16;
}

// Takes a line without its end; tells whether it was one.
static int take_line(const char *line) {
    uint32_t word = 0;
    if (strcmp(line, "read") == 0) {
        read_pixel();
        return 1;
    }
    if (strcmp(line, "tiled") == 0) {
        begin(dextolumen_reset_tiled());
        return 1;
    }
    if (strcmp(line, "end") == 0) {
        end();
        return 1;
    }
    if (strlen(line) != 5) return 0;
    for (size_t k = 0; k < 5; k++) {
        if (digit(line[k]) > 15) return 0;
        word = word << 4 | digit(line[k]);
    }
    take(word);
    return 1;
}

int main(void) {
    char line[8];
    size_t length = 0;
    unsigned long number = 1;
    begin(dextolumen_reset());
    for (int c = getchar(); c != EOF; c = getchar()) {
        if (c != '\n') {
            if (length < sizeof line - 1) line[length++] = (char)c;
            continue;
        }
        line[length] = 0;
        if (!take_line(line)) {
            fprintf(stderr, "reads: line %lu is no word, `read`, `tiled` or `end`\n", number);
            return 1;
        }
        length = 0;
        number++;
    }
    if (length != 0 || ferror(stdin) || fflush(stdout) != 0) {
        fprintf(stderr, "reads: standard input or output\n");
        return 1;
    }
    return 0;
}
