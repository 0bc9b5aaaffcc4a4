/*
 * A ramp from paper to black, built in memory, as a plate of dots: started, settled, measured, printed.
 *
 *     make lib
 *     cc -Iinclude examples/library.c target/lib/libplatemaker.a -o target/library && target/library
 */
#include <inttypes.h>
#include <stdio.h>
#include <stdlib.h>

#include "platemaker.h"

enum { WIDTH = 64, HEIGHT = 8, CELLS = WIDTH * HEIGHT };

static void check(const char *call, uint32_t status) {
    if (status == 0) return;
    fprintf(stderr, "%s refused %" PRIu32 ": %s\n", call, status, pm_refusal_text(status));
    exit(1);
}

int main(void) {
    static uint8_t gray[CELLS], dots[CELLS];
    static int32_t table[CELLS];
    struct pm_plate plate = {
        .measures = {WIDTH, HEIGHT, 1, 3, 1}, /* radius 1, reach 3, an ordered start */
        .psf = {1, 2, 1, 2, 4, 2, 1, 2, 1},
        .gray = gray, .dots = dots, .table = table, .room = CELLS,
    };
    for (size_t i = 0; i < CELLS; i++) gray[i] = (uint8_t)(i % WIDTH * 255 / (WIDTH - 1));

    uint64_t scans = 0;
    int64_t error = 0;
    check("pm_plate_start", pm_plate_start(&plate));
    check("pm_plate_settle", pm_plate_settle(&plate, &scans));
    check("pm_plate_measure", pm_plate_measure(&plate, &error));
    for (size_t row = 0; row < HEIGHT; row++, putchar('\n'))
        for (size_t col = 0; col < WIDTH; col++) putchar(dots[row * WIDTH + col] ? '#' : '.');
    printf("squared error %" PRId64 ", was %" PRId64 "\n", error, plate.stats[PM_STATS_START_ERROR]);
}
