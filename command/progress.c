/* Settles the plate. On a terminal that is done scan by scan, with a line of progress where it takes long. */
#include "plate.h"

#include <time.h>

static double seconds(void) {
    struct timespec now = {0, 0};
    clock_gettime(CLOCK_MONOTONIC, &now);
    return (double)now.tv_sec + 1e-9 * (double)now.tv_nsec;
}

/* what pm_plate_settle does; a line is due after half a second, and then every tenth. *shown is its length */
static uint32_t settle_by_scans(uint64_t *scans, int *shown) {
    double due = seconds() + 0.5;
    uint64_t changes = 1, trials = 0;
    for (int swaps = 0; !swaps || changes > 0;) {
        swaps = changes == 0;
        uint32_t number = swaps ? pm_plate_swap_scan(&plate, &changes, &trials)
                                : pm_plate_toggle_scan(&plate, &changes, &trials);
        if (number != 0) return number;
        ++*scans;
        if (seconds() < due) continue;
        *shown = fprintf(stderr, "\rscan %" PRIu64 ", squared error %-16" PRId64, *scans, plate.stats[PM_STATS_ERROR]);
        due = seconds() + 0.1;
    }
    return 0;
}

uint32_t settle_plate(uint64_t *scans) {
    int shown = 0;
    *scans = 0;
    if (!isatty(STDERR_FILENO)) return pm_plate_settle(&plate, scans);
    uint32_t number = settle_by_scans(scans, &shown);
    if (shown > 0) fprintf(stderr, "\r%*s\r", shown, "");
    return number;
}
