/*
 * Reads a sheet from standard input, starts a plate from it and lets it settle, with the library platemaker. Prints the
 * dots of the start and of the settled plate with their squared errors. Plates of any size that a sheet can have.
 *
 *     make lib
 *     cc -Iinclude examples/halftone.c target/lib/libplatemaker.a -o target/halftone
 *     target/halftone <examples/knolls.sheet
 */
#include <inttypes.h>
#include <stdio.h>

#include "platemaker.h"

static uint8_t sheet[PM_MAX_SHEET + 1]; /* a byte more, so that a longer input is no sheet */
static uint8_t gray[PM_MAX_CELLS], dots[PM_MAX_CELLS];
static int32_t table[PM_MAX_CELLS];

/* a row of the plate to a line, # for a dot */
static void print_dots(const struct pm_plate *plate) {
    size_t width = plate->measures[PM_MEASURE_WIDTH], cells = pm_plate_cells(plate);
    for (size_t i = 0; i < cells; i++) {
        putchar(plate->dots[i] ? '#' : '.');
        if ((i + 1) % width == 0) putchar('\n');
    }
}

static int refused(uint32_t number, size_t offset) {
    printf("refused %" PRIu32 " at %zu: %s\n", number, offset, pm_refusal_text(number));
    return 1;
}

int main(void) {
    struct pm_plate plate = {.gray = gray, .dots = dots, .table = table, .room = PM_MAX_CELLS};
    const int64_t *stats = plate.stats;
    size_t offset = 0, length = fread(sheet, 1, sizeof sheet, stdin);
    uint32_t status = pm_plate_read(&plate, sheet, length, &offset);
    if (status != 0) return refused(status, offset);

    status = pm_plate_start(&plate);
    if (status != 0) return refused(status, 0);
    printf("start: squared error %" PRId64 "\n", stats[PM_STATS_ERROR]);
    print_dots(&plate);

    uint64_t scans = 0;
    status = pm_plate_settle(&plate, &scans);
    if (status != 0) return refused(status, 0);
    printf("settled: squared error %" PRId64 ", on %" PRId64 ", off %" PRId64, stats[PM_STATS_ERROR],
           stats[PM_STATS_ON], stats[PM_STATS_OFF]);
    printf(", swaps %" PRId64 ", scans %" PRIu64 "\n", stats[PM_STATS_SWAPS], scans);
    print_dots(&plate);
    return 0;
}
