/*
 * Measures the library's functions for raw PBM and PGM files and gray PFM files, its writer of sheets and its tone
 * balance, on 256 by 256 cells against plain C loops over the same bytes, which judge nothing but lengths and the
 * samples of a PFM. Both sides take turns in one run; a time is the least of all turns. Prints a table, with --markdown
 * one for a page; the last line is 'N passed, M failed'. A function passes when both sides ended alike and the library
 * took at most LIMIT times as long as the loop, with a PFM at most PFM_LIMIT times.
 */
#define _POSIX_C_SOURCE 199309L
#include <stdio.h>
#include <stdlib.h>
#include <string.h>
#include <time.h>

#include "platemaker.h"

enum { SIDE = 256, CELLS = SIDE * SIDE, BYTES = PM_MAX_SHEET };
enum { TURNS = 1000, LIMIT = 5, PFM_LIMIT = 2 };

/* all that a function may write; one for each side */
struct results {
    uint32_t status;
    size_t width, height, length, remainder;
    int64_t quotient;
    float scale;
    uint8_t cells[CELLS], file[BYTES];
    uint32_t counts[SIDE];
};

/* what all of them read: the measures, which the compiler does not know, the cells, both files of them, the rows of the
   PBM, the measures and psf of a sheet, and two PFM files, the second of them little-endian */
static size_t width, height, cells, line, packed;
static uint8_t dots[CELLS], gray[CELLS], pbm[BYTES], pgm[BYTES], rows[CELLS];
static size_t measures[PM_MEASURES];
static uint8_t psf[PM_MAX_PSF], pfm[2][PM_MAX_PFM + 1];
static size_t pbm_length, pgm_length, pfm_length[2];
static struct results by_library, by_loop;

/* the number at *at, which is moved past the byte after it */
static size_t read_number(const uint8_t *file, size_t *at) {
    size_t value = 0;
    while (file[*at] >= '0' && file[*at] <= '9') value = 10 * value + (size_t)(file[(*at)++] - '0');
    (*at)++;
    return value;
}

static void loop_read_pbm(struct results *r) {
    size_t at = 3;
    r->width = read_number(pbm, &at);
    r->height = read_number(pbm, &at);
    size_t bytes = (r->width + 7) / 8;
    r->status = pbm_length - at != bytes * r->height || r->width * r->height > CELLS;
    if (r->status != 0) return;
    for (size_t y = 0, i = 0; y < r->height; y++) {
        for (size_t x = 0; x < r->width; x++, i++) r->cells[i] = pbm[at + y * bytes + x / 8] >> (7 - x % 8) & 1;
    }
}

static void loop_read_pgm(struct results *r) {
    size_t at = 3;
    r->width = read_number(pgm, &at);
    r->height = read_number(pgm, &at);
    read_number(pgm, &at);
    size_t bytes = r->width * r->height;
    r->status = pgm_length - at != bytes || bytes > CELLS;
    if (r->status != 0) return;
    for (size_t i = 0; i < bytes; i++) r->cells[i] = (uint8_t)(255 - pgm[at + i]);
}

static float read_sample(const uint8_t *at, int little) {
    uint32_t bits = little ? at[0] | (uint32_t)at[1] << 8 | (uint32_t)at[2] << 16 | (uint32_t)at[3] << 24
                           : at[3] | (uint32_t)at[2] << 8 | (uint32_t)at[1] << 16 | (uint32_t)at[0] << 24;
    float sample;
    memcpy(&sample, &bits, sizeof sample);
    return sample;
}

/* in one pass: a sample that is no shade ends it, and what stands before it has been stored */
static void loop_read_pfm(struct results *r, int which) {
    const uint8_t *file = pfm[which];
    size_t at = 3;
    r->width = read_number(file, &at);
    r->height = read_number(file, &at);
    int little = file[at] == '-';
    at += little ? 5 : 4;
    r->status = pfm_length[which] - at != 4 * r->width * r->height || r->width * r->height > CELLS;
    if (r->status != 0) return;
    for (size_t y = r->height; y-- > 0;) {
        for (size_t x = 0; x < r->width; x++, at += 4) {
            float sample = read_sample(file + at, little);
            r->status = !(sample >= 0 && sample <= 1);
            if (r->status != 0) return;
            r->cells[y * r->width + x] = (uint8_t)(255 - (int)(255 * (double)sample + 0.5));
        }
    }
    r->scale = little ? -1 : 1;
}

static void loop_read_big_pfm(struct results *r) {
    loop_read_pfm(r, 0);
}

static void loop_read_little_pfm(struct results *r) {
    loop_read_pfm(r, 1);
}

static void loop_write_pbm(struct results *r) {
    size_t at = (size_t)sprintf((char *)r->file, "P4\n%zu %zu\n", width, height);
    r->status = at + packed > BYTES;
    if (r->status != 0) return;
    memset(r->file + at, 0, packed);
    for (size_t y = 0, i = 0; y < height; y++) {
        for (size_t x = 0; x < width; x++, i++) r->file[at + y * line + x / 8] |= (uint8_t)(dots[i] << (7 - x % 8));
    }
    r->length = at + packed;
}

static void loop_write_pgm(struct results *r) {
    size_t at = (size_t)sprintf((char *)r->file, "P5\n%zu %zu\n255\n", width, height);
    r->status = at + cells > BYTES;
    if (r->status != 0) return;
    for (size_t i = 0; i < cells; i++) r->file[at + i] = (uint8_t)(255 - gray[i]);
    r->length = at + cells;
}

/* a number and the byte that ends it; the place after both */
static size_t write_field(uint8_t *file, size_t at, size_t value, char end) {
    char digits[20];
    size_t count = 0;
    do digits[count++] = (char)('0' + value % 10);
    while ((value /= 10) != 0);
    while (count > 0) file[at++] = (uint8_t)digits[--count];
    file[at++] = (uint8_t)end;
    return at;
}

/* a name and its values in rows; the place after them */
static size_t write_block(uint8_t *file, size_t at, const char *name, const uint8_t *values, size_t count,
                          size_t in_row) {
    at += (size_t)sprintf((char *)file + at, "%s\n", name);
    for (size_t i = 0; i < count; i++) at = write_field(file, at, values[i], (i + 1) % in_row == 0 ? '\n' : ' ');
    return at;
}

static void loop_write_sheet(struct results *r) {
    size_t at = (size_t)sprintf((char *)r->file, "width height radius reach start\n");
    for (size_t i = 0; i < PM_MEASURES; i++) {
        at = write_field(r->file, at, measures[i], i + 1 == PM_MEASURES ? '\n' : ' ');
    }
    at = write_block(r->file, at, "psf", psf, PM_MAX_PSF, 2 * measures[PM_MEASURE_RADIUS] + 1);
    at = write_block(r->file, at, "gray", gray, cells, width);
    at = write_block(r->file, at, "dots", dots, cells, width);
    r->status = 0;
    r->length = at;
}

/* the ones of a byte: in pairs of bits, then in fours, then in all eight */
static uint32_t ones(unsigned byte) {
    byte -= byte >> 1 & 0x55;
    byte = (byte & 0x33) + (byte >> 2 & 0x33);
    return (byte + (byte >> 4)) & 15;
}

static void loop_count_rows(struct results *r) {
    r->status = 0;
    for (size_t y = 0; y < height; y++) {
        uint32_t count = 0;
        for (size_t x = 0; x < line; x++) count += ones(rows[y * line + x]);
        r->counts[y] = count;
    }
}

static void loop_tone_balance(struct results *r) {
    int64_t difference = 0, count = (int64_t)cells;
    for (size_t i = 0; i < cells; i++) difference += 255 * dots[i] - gray[i];
    int64_t rest = (difference % count + count) % count;
    r->status = 0;
    r->quotient = (difference - rest) / count;
    r->remainder = (size_t)rest;
}

static void library_read_pbm(struct results *r) {
    r->status = pm_read_pbm(pbm, pbm_length, r->cells, CELLS, &r->width, &r->height);
}

static void library_read_pgm(struct results *r) {
    r->status = pm_read_pgm(pgm, pgm_length, r->cells, CELLS, &r->width, &r->height);
}

static void library_read_pfm(struct results *r, int which) {
    size_t offset;
    r->status = pm_read_pfm(pfm[which], pfm_length[which], r->cells, CELLS, &r->width, &r->height, &r->scale, &offset);
}

static void library_read_big_pfm(struct results *r) {
    library_read_pfm(r, 0);
}

static void library_read_little_pfm(struct results *r) {
    library_read_pfm(r, 1);
}

static void library_write_pbm(struct results *r) {
    r->status = pm_write_pbm(width, height, dots, cells, r->file, BYTES, &r->length);
}

static void library_write_pgm(struct results *r) {
    r->status = pm_write_pgm(width, height, gray, cells, r->file, BYTES, &r->length);
}

static void library_write_sheet(struct results *r) {
    size_t offset;
    r->status = pm_write_sheet(measures, PM_MEASURES, psf, PM_MAX_PSF, gray, cells, dots, cells, r->file, BYTES,
                               &r->length, &offset);
}

static void library_count_rows(struct results *r) {
    r->status = pm_count_rows(width, height, rows, packed, r->counts, height);
}

static void library_tone_balance(struct results *r) {
    r->status = pm_tone_balance(width, height, gray, cells, dots, cells, &r->quotient, &r->remainder);
}

typedef void side(struct results *r);

static const struct job {
    const char *name;
    side *library, *loop;
    int limit;
} jobs[] = {
    {"pm_read_pbm", library_read_pbm, loop_read_pbm, LIMIT},
    {"pm_read_pgm", library_read_pgm, loop_read_pgm, LIMIT},
    {"pm_read_pfm 1.0", library_read_big_pfm, loop_read_big_pfm, PFM_LIMIT},
    {"pm_read_pfm -1.0", library_read_little_pfm, loop_read_little_pfm, PFM_LIMIT},
    {"pm_write_pbm", library_write_pbm, loop_write_pbm, LIMIT},
    {"pm_write_pgm", library_write_pgm, loop_write_pgm, LIMIT},
    {"pm_count_rows", library_count_rows, loop_count_rows, LIMIT},
    {"pm_write_sheet", library_write_sheet, loop_write_sheet, LIMIT},
    {"pm_tone_balance", library_tone_balance, loop_tone_balance, LIMIT},
};

/* a PFM of noise */
static void fill_pfm(int which) {
    uint32_t noise = 1;
    size_t at = (size_t)sprintf((char *)pfm[which], "Pf\n%zu %zu\n%s\n", width, height, which ? "-1.0" : "1.0");
    for (size_t i = 0; i < cells; i++, at += 4) {
        noise = noise * 1664525 + 1013904223;
        float sample = (float)(noise >> 8) / (1 << 24);
        uint32_t bits;
        memcpy(&bits, &sample, sizeof bits);
        for (size_t n = 0; n < 4; n++) pfm[which][at + (which ? n : 3 - n)] = (uint8_t)(bits >> 8 * n);
    }
    pfm_length[which] = at;
}

/* noise, and the files of it by the loops */
static void fill(size_t side) {
    uint32_t noise = 1;
    width = height = side;
    cells = width * height;
    line = (width + 7) / 8;
    packed = line * height;
    for (size_t i = 0; i < cells; i++) {
        noise = noise * 1664525 + 1013904223;
        gray[i] = (uint8_t)(noise >> 24);
        dots[i] = noise >> 23 & 1;
    }
    size_t values[PM_MEASURES] = {width, height, 3, 6, 2};
    memcpy(measures, values, sizeof values);
    memset(psf, 20, sizeof psf);
    loop_write_pbm(&by_loop);
    pbm_length = by_loop.length;
    memcpy(pbm, by_loop.file, pbm_length);
    memcpy(rows, pbm + pbm_length - packed, packed);
    loop_write_pgm(&by_loop);
    pgm_length = by_loop.length;
    memcpy(pgm, by_loop.file, pgm_length);
    fill_pfm(0);
    fill_pfm(1);
}

/* the time of one call, in µs */
static double time_of(side *call, struct results *r) {
    struct timespec from, to;
    clock_gettime(CLOCK_MONOTONIC, &from);
    call(r);
    clock_gettime(CLOCK_MONOTONIC, &to);
    return (double)(to.tv_sec - from.tv_sec) * 1e6 + (double)(to.tv_nsec - from.tv_nsec) / 1e3;
}

static int rising(const void *a, const void *b) {
    double x = *(const double *)a, y = *(const double *)b;
    return (x > y) - (x < y);
}

/* measures a function, prints its line, and answers whether it passes */
static int measure(const struct job *job, const char *row) {
    static double library[TURNS], loop[TURNS];
    memset(&by_library, 0x77, sizeof by_library);
    memset(&by_loop, 0x77, sizeof by_loop);
    for (size_t i = 0; i < TURNS; i++) {
        library[i] = time_of(job->library, &by_library);
        loop[i] = time_of(job->loop, &by_loop);
    }
    qsort(library, TURNS, sizeof *library, rising);
    qsort(loop, TURNS, sizeof *loop, rising);
    double ratio = library[0] / loop[0];
    printf(row, job->name, library[0], loop[0], ratio, library[TURNS / 2] / loop[TURNS / 2]);

    int alike = by_library.status == 0 && memcmp(&by_library, &by_loop, sizeof by_loop) == 0;
    if (!alike) printf("%s: the sides ended differently\n", job->name);
    if (ratio > job->limit) printf("%s: more than %d times as long\n", job->name, job->limit);
    return alike && ratio <= job->limit;
}

int main(int argc, char **argv) {
    int markdown = argc == 2 && strcmp(argv[1], "--markdown") == 0;
    if (argc > 1 && !markdown) {
        fputs("usage: pictures [--markdown]\n", stderr);
        return 2;
    }
    const char *head = "256 by 256, in µs    a (library)  b (loop)   a/b  of medians\n";
    const char *row = "%-20s %11.1f %9.1f %5.2f %11.2f\n";
    if (markdown) {
        head = "| function | a | b | a/b | a/b of medians |\n|---|--:|--:|--:|--:|\n";
        row = "| `%s` | %.1f | %.1f | %.2f | %.2f |\n";
    }
    fill(SIDE);
    fputs(head, stdout);
    int count = sizeof jobs / sizeof *jobs, passed = 0;
    for (int i = 0; i < count; i++) passed += measure(&jobs[i], row);
    printf("%d passed, %d failed\n", passed, count - passed);
    return passed < count;
}
