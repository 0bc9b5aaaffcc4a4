/* The ready psfs of the command, and what it takes where nothing is said: docs/MEASUREMENTS.md has how they were chosen. */
#ifndef PSFS_H
#define PSFS_H

#include "platemaker.h"

struct psf {
    const char *name;
    size_t radius;
    uint8_t entries[PM_MAX_PSF]; /* the rows of its square, one after another */
};

/* the first is the default; ends with a NULL name */
extern const struct psf ready_psfs[];

enum { DEFAULT_REACH = 1, DEFAULT_START = 0 };

#endif
