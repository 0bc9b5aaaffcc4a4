/* plate check: whether filed sheets are what they say, a line for each on standard output. */
#include "plate.h"

static enum status answer(const char *name, const int64_t *verdict) {
    int64_t agrees = verdict[PM_VERDICT_AGREES], fits = verdict[PM_VERDICT_FITS], rests = verdict[PM_VERDICT_RESTS];
    printf("%s: the figure %" PRId64 " %s to the dots", name, verdict[PM_VERDICT_FIGURE],
           agrees ? "belongs" : "does NOT belong");
    if (!agrees) printf(", whose squared error is %" PRId64, verdict[PM_VERDICT_SQUARED]);
    printf("; the ledger %s", fits ? "fits" : "does NOT fit");
    if (rests < 0) {
        printf("; the plate can NOT be started, %" PRId64 ": %s\n", -rests, pm_refusal_text((uint32_t)-rests));
    } else {
        printf("; the plate is %s\n", rests ? "at rest" : "NOT at rest");
    }
    if (fflush(stdout) != 0) return trouble("standard output");
    return agrees && fits && rests == 1 ? GOOD : DIFFERS;
}

static enum status check_file(const char *name) {
    struct input input;
    int64_t verdict[PM_VERDICT];
    size_t offset = 0;
    enum status status = read_file(name, &input);
    if (status != GOOD) return status;
    uint32_t number = pm_check_filed(input.bytes, input.length, plate.psf, PM_MAX_PSF, plate.gray, plate.room,
                                     plate.dots, plate.room, plate.table, plate.room, verdict, PM_VERDICT, &offset);
    return number == 0 ? answer(input.name, verdict) : refused(&input, number, offset);
}

enum status check(int count, char **words) {
    return each_file(count, words, check_file);
}
