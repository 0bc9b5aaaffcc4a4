/* Finds the psf that an option names: a ready one, or a file of numbers. */
#include "plate.h"

#define SPACES " \t\n\v\f\r"

static struct psf given;

static enum status read_psf(const struct input *input) {
    const char *text = (const char *)input->bytes, *at = text + strspn(text, SPACES);
    size_t count = 0, side = 1;
    while (*at != '\0' && count < PM_MAX_PSF) {
        size_t digits = strspn(at, "0123456789");
        unsigned long entry = strtoul(at, NULL, 10);
        if (digits == 0 || digits != strcspn(at, SPACES) || entry > 255) {
            return tell_at(TROUBLE, input, (size_t)(at - text), "no number from 0 to 255");
        }
        given.entries[count++] = (uint8_t)entry;
        at += digits + strspn(at + digits, SPACES);
    }
    while (side * side < count) side += 2;
    given.radius = side / 2;
    if (side * side == count && at == text + input->length) return GOOD;
    return tell_at(TROUBLE, input, (size_t)(at - text), "a psf has 1, 9, 25 or 49 numbers");
}

enum status find_psf(const char *name, const struct psf **psf) {
    for (*psf = ready_psfs; (*psf)->name != NULL; ++*psf) {
        if (strcmp((*psf)->name, name) == 0) return GOOD;
    }
    int unknown = strcmp(name, "-") != 0 && strchr(name, '/') == NULL && access(name, F_OK) != 0;
    if (unknown) return tell(TROUBLE, USAGE("there is no ready psf and no file '%s'"), name);
    struct input input;
    enum status status = read_file(name, &input);
    given.name = input.name;
    *psf = &given;
    return status == GOOD ? read_psf(&input) : status;
}
