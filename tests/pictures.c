/*
 * Turns raw PBM and PGM files into plain ones and back, and gray PFM files into plain PGM ones, by the library
 * platemaker, for tests/netpbm and tests/library.
 * A plain file that it prints has a line of kind and measures, then a line for each row, its values one space apart.
 *
 *     pictures read <RAW       a raw file as plain, its cells as the library reads them
 *     pictures write <PLAIN    a plain file as the raw one that the library writes
 *     pictures count <PLAIN    of a PBM: the dots of each row, as the library counts them in the rows that it writes
 *     pictures lay <PLAIN      a plain file, laid out as said
 *
 * A refusal is printed with its number. The exit status is then 1, and 2 where the arguments or a plain file are wrong.
 */
#include <inttypes.h>
#include <stdio.h>
#include <stdlib.h>
#include <string.h>

#include "platemaker.h"

enum { SIDE = 256, CELLS = SIDE * SIDE, BYTES = 1 << 20 };

/* cells as they are stored in a file: in a PBM a dot is 1, in a PGM black is 0 */
struct picture {
    int is_pbm;
    size_t width, height;
    uint8_t cells[CELLS];
};

static struct picture picture;
static uint8_t file[BYTES];

static _Noreturn void wrong(const char *what) {
    fprintf(stderr, "pictures: %s\n", what);
    exit(2);
}

static void judge(uint32_t status) {
    if (status == 0) return;
    printf("refused %" PRIu32 "\n", status);
    exit(1);
}

/* between what a PGM stores and gray */
static void complement(struct picture *p) {
    for (size_t i = 0; i < p->width * p->height; i++) p->cells[i] = (uint8_t)(255 - p->cells[i]);
}

/* by the library */
static void read_raw(struct picture *p) {
    size_t length = fread(file, 1, BYTES, stdin);
    size_t offset = 0;
    float scale = 0;
    p->is_pbm = length > 1 && file[1] == '4';
    if (length > 1 && file[1] == 'f') {
        judge(pm_read_pfm(file, length, p->cells, CELLS, &p->width, &p->height, &scale, &offset));
    } else {
        judge((p->is_pbm ? pm_read_pbm : pm_read_pgm)(file, length, p->cells, CELLS, &p->width, &p->height));
    }
    if (!p->is_pbm) complement(p);
}

/* the next value of a plain file; those of a PBM need no space between them */
static uint8_t next_value(int is_pbm) {
    unsigned value = 0;
    if (scanf(is_pbm ? "%1u" : "%u", &value) != 1 || value > (is_pbm ? 1u : 255u)) wrong("a wrong value");
    return (uint8_t)value;
}

static void read_plain(struct picture *p) {
    char kind = 0;
    unsigned maximum = 255;
    if (scanf("P%c %zu %zu", &kind, &p->width, &p->height) != 3) wrong("a wrong header");
    if (kind != '1' && kind != '2') wrong("a wrong kind");
    if (p->width - 1 >= SIDE || p->height - 1 >= SIDE) wrong("wrong measures");
    if (kind == '2' && (scanf("%u", &maximum) != 1 || maximum != 255)) wrong("a wrong maximum");
    p->is_pbm = kind == '1';
    for (size_t i = 0; i < p->width * p->height; i++) p->cells[i] = next_value(p->is_pbm);
}

/* by the library, into file; answers the length */
static size_t pack(struct picture *p) {
    size_t length = 0;
    if (!p->is_pbm) complement(p);
    judge((p->is_pbm ? pm_write_pbm : pm_write_pgm)(p->width, p->height, p->cells, p->width * p->height, file, BYTES,
                                                    &length));
    return length;
}

static void print_plain(const struct picture *p) {
    printf(p->is_pbm ? "P1 %zu %zu\n" : "P2 %zu %zu 255\n", p->width, p->height);
    for (size_t i = 0; i < p->width * p->height; i++) {
        printf("%d%c", p->cells[i], (i + 1) % p->width == 0 ? '\n' : ' ');
    }
}

static void print_raw(struct picture *p) {
    size_t length = pack(p);
    if (fwrite(file, 1, length, stdout) != length) wrong("the output could not be written");
}

static void print_counts(struct picture *p) {
    static uint32_t counts[SIDE];
    size_t length = pack(p), packed = (p->width + 7) / 8 * p->height;
    judge(pm_count_rows(p->width, p->height, file + length - packed, packed, counts, p->height));
    for (size_t row = 0; row < p->height; row++) printf("%" PRIu32 "\n", counts[row]);
}

int main(int argc, char **argv) {
    const char *wanted = argc == 2 ? argv[1] : "";
    if (strcmp(wanted, "read") == 0) read_raw(&picture);
    else read_plain(&picture);

    if (strcmp(wanted, "read") == 0 || strcmp(wanted, "lay") == 0) print_plain(&picture);
    else if (strcmp(wanted, "write") == 0) print_raw(&picture);
    else if (strcmp(wanted, "count") == 0 && picture.is_pbm) print_counts(&picture);
    else wrong("usage: pictures read|write|count|lay <FILE");
    return 0;
}
