/*
 * Settles one plate and measures it, for bench/defaults. With the arguments TURNS SIGMA... it reads a sheet from
 * standard input, starts and settles it so many times, and prints three lines:
 *   before after on off swaps scans dots seconds     the figures; seconds of the processor, start to rest,
 *                                                    the least of all turns
 *   agrees fits rests rms...                         what pm_check_filed says of the filed sheet; the yardsticks
 *   0110...                                          the dots
 * A yardstick is the rms, in gray levels, of the error spread by a Gaussian of sigma cells: the sum of its squares is
 * taken over the plate widened as far as the Gaussian goes, as with the squared error, and divided by the cells.
 * With the argument --ready it prints the default reach and start, and a line for each ready psf.
 */
#define _POSIX_C_SOURCE 199309L
#include <inttypes.h>
#include <math.h>
#include <stdio.h>
#include <stdlib.h>
#include <string.h>
#include <time.h>

#include "../command/psfs.h"
#include "platemaker.h"

enum { MAX_SPREAD = 32, MAX_WIDE = PM_MAX_SIDE + 2 * MAX_SPREAD };

static uint8_t text[PM_MAX_FILED + 1];
static uint8_t gray[PM_MAX_CELLS], dots[PM_MAX_CELLS];
static int32_t table[PM_MAX_CELLS];
static double error[MAX_WIDE * MAX_WIDE], spread[MAX_WIDE * MAX_WIDE];

static void stop(const char *what, uint32_t status) {
    fprintf(stderr, "bench/defaults: %s: %s\n", what, pm_refusal_text(status));
    exit(2);
}

/* seconds of the processor: others on the machine add less to them than to those of a clock */
static double seconds_now(void) {
    struct timespec now;
    clock_gettime(CLOCK_PROCESS_CPUTIME_ID, &now);
    return (double)now.tv_sec + 1e-9 * (double)now.tv_nsec;
}

/* starts and settles the plate, and answers the seconds from start to rest */
static double settle(struct pm_plate *plate, uint64_t *scans) {
    double begin = seconds_now();
    uint32_t status = pm_plate_start(plate);
    if (status == 0) status = pm_plate_settle(plate, scans);
    double end = seconds_now();
    if (status != 0) stop("settling", status);
    return end - begin;
}

/* the weights of a Gaussian from its middle outwards, which sum to 1 over both sides; answers how far it goes */
static size_t gaussian(double sigma, double *weights) {
    size_t far = (size_t)ceil(4 * sigma);
    if (!(sigma > 0) || far > MAX_SPREAD) {
        fputs("bench/defaults: a sigma is above 0 and at most 8\n", stderr);
        exit(2);
    }
    double sum = 0;
    for (size_t i = 0; i <= far; i++) {
        weights[i] = exp(-(double)(i * i) / (2 * sigma * sigma));
        sum += i == 0 ? weights[i] : 2 * weights[i];
    }
    for (size_t i = 0; i <= far; i++) weights[i] /= sum;
    return far;
}

/* spreads each of the lines of from into to; along a line cells lie step apart, lines lie jump apart */
static void spread_lines(const double *from, double *to, size_t lines, size_t jump, size_t length, size_t step,
                         const double *weights, size_t far) {
    for (size_t line = 0; line < lines; line++) {
        const double *a = from + line * jump;
        double *b = to + line * jump;
        for (size_t i = 0; i < length; i++) {
            double sum = weights[0] * a[i * step];
            for (size_t k = 1; k <= far; k++) {
                if (i >= k) sum += weights[k] * a[(i - k) * step];
                if (i + k < length) sum += weights[k] * a[(i + k) * step];
            }
            b[i * step] = sum;
        }
    }
}

/* the yardstick of a sigma */
static double yardstick(const struct pm_plate *plate, double sigma) {
    double weights[MAX_SPREAD + 1];
    size_t far = gaussian(sigma, weights);
    size_t width = plate->measures[PM_MEASURE_WIDTH], height = plate->measures[PM_MEASURE_HEIGHT];
    size_t wide = width + 2 * far, high = height + 2 * far;
    memset(error, 0, sizeof error);
    for (size_t i = 0; i < width * height; i++) {
        error[(i / width + far) * wide + i % width + far] = 255.0 * plate->dots[i] - plate->gray[i];
    }
    spread_lines(error, spread, high, wide, wide, 1, weights, far);
    spread_lines(spread, error, wide, 1, high, wide, weights, far);
    double sum = 0;
    for (size_t i = 0; i < wide * high; i++) sum += error[i] * error[i];
    return sqrt(sum / (double)(width * height));
}

/* files the plate as the program settle would print it, and has it checked */
static void check(const struct pm_plate *plate, uint64_t scans) {
    static uint8_t filed_psf[PM_MAX_PSF], filed_gray[PM_MAX_CELLS], filed_dots[PM_MAX_CELLS];
    size_t length = 0, offset = 0;
    uint32_t status = pm_plate_write(plate, text, PM_MAX_SHEET, &length, &offset);
    if (status != 0) stop("writing", status);
    const int64_t *s = plate->stats;
    int more = snprintf((char *)text + length, sizeof text - length,
                        "before after on off swaps scans\n%" PRId64 " %" PRId64 " %" PRId64 " %" PRId64 " %" PRId64
                        " %" PRIu64 "\n", s[PM_STATS_START_ERROR], s[PM_STATS_ERROR], s[PM_STATS_ON],
                        s[PM_STATS_OFF], s[PM_STATS_SWAPS], scans);
    int64_t verdict[PM_VERDICT];
    status = pm_check_filed(text, length + (size_t)more, filed_psf, PM_MAX_PSF, filed_gray, PM_MAX_CELLS, filed_dots,
                            PM_MAX_CELLS, table, PM_MAX_CELLS, verdict, PM_VERDICT, &offset);
    if (status != 0) stop("checking", status);
    printf("%" PRId64 " %" PRId64 " %" PRId64, verdict[PM_VERDICT_AGREES], verdict[PM_VERDICT_FITS],
           verdict[PM_VERDICT_RESTS]);
}

static void print_figures(const struct pm_plate *plate, uint64_t scans, double seconds) {
    const int64_t *s = plate->stats;
    printf("%" PRId64 " %" PRId64 " %" PRId64 " %" PRId64 " %" PRId64 " %" PRIu64 " %" PRId64 " %.6f\n",
           s[PM_STATS_START_ERROR], s[PM_STATS_ERROR], s[PM_STATS_ON], s[PM_STATS_OFF], s[PM_STATS_SWAPS], scans,
           s[PM_STATS_START_DOTS] + s[PM_STATS_ON] - s[PM_STATS_OFF], seconds);
}

static void print_ready(void) {
    printf("%d %d\n", DEFAULT_REACH, DEFAULT_START);
    for (const struct psf *psf = ready_psfs; psf->name != NULL; psf++) {
        size_t side = 2 * psf->radius + 1;
        printf("%s %zu", psf->name, psf->radius);
        for (size_t i = 0; i < side * side; i++) printf(" %d", psf->entries[i]);
        putchar('\n');
    }
}

int main(int count, char **words) {
    if (count == 2 && strcmp(words[1], "--ready") == 0) {
        print_ready();
        return 0;
    }
    int turns = count > 1 ? atoi(words[1]) : 0;
    if (turns < 1) {
        fputs("usage: bench-defaults TURNS SIGMA... <sheet, or bench-defaults --ready\n", stderr);
        return 2;
    }
    struct pm_plate plate = {.gray = gray, .dots = dots, .table = table, .room = PM_MAX_CELLS};
    size_t offset = 0, length = fread(text, 1, sizeof text, stdin);
    uint32_t status = pm_plate_read(&plate, text, length, &offset);
    if (status != 0) stop("reading", status);
    uint64_t scans = 0;
    double least = settle(&plate, &scans);
    for (int turn = 1; turn < turns; turn++) {
        double seconds = settle(&plate, &scans);
        if (seconds < least) least = seconds;
    }
    print_figures(&plate, scans, least);
    check(&plate, scans);
    for (int i = 2; i < count; i++) printf(" %.5f", yardstick(&plate, atof(words[i])));
    putchar('\n');
    for (size_t i = 0; i < pm_plate_cells(&plate); i++) putchar('0' + dots[i]);
    putchar('\n');
    return 0;
}
