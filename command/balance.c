/* plate balance: whether plates are darker than their ground, a line for each on standard output. */
#include "plate.h"

static enum status answer(const char *name, int64_t quotient, size_t remainder) {
    const char *words = quotient < 0 ? "lighter than" : quotient > 0 || remainder > 0 ? "darker than" : "as dark as";
    printf("%s: %s its ground: quotient %" PRId64 ", remainder %zu, of %zu cells\n", name, words, quotient, remainder,
           pm_plate_cells(&plate));
    return fflush(stdout) == 0 ? GOOD : trouble("standard output");
}

static enum status balance_file(const char *name) {
    struct input input;
    int64_t quotient = 0;
    size_t remainder = 0;
    enum status status = read_file(name, &input);
    if (status == GOOD && begins(&input, 0, "P")) {
        return tell(DIFFERS, "%s: a picture has gray or dots: a sheet with dots has both", input.name);
    }
    if (status == GOOD) status = read_sheet(&input);
    if (status != GOOD) return status;
    uint32_t number = pm_plate_balance(&plate, &quotient, &remainder);
    return number == 0 ? answer(input.name, quotient, remainder) : refused(&input, number, 0);
}

enum status balance(int count, char **words) {
    return each_file(count, words, balance_file);
}
