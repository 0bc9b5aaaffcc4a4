/* The ready psfs. bench/defaults makes each by its formula, measures them with many others and checks this table. */
#include "psfs.h"

const struct psf ready_psfs[] = {
    /* A model of how the eye spreads a plate: the default. */
    {"eye", 3,
     { 7,  8, 10, 11, 10,  8,  7,
       8, 12, 18, 23, 18, 12,  8,
      10, 18, 44, 63, 44, 18, 10,
      11, 23, 63, 94, 63, 23, 11,
      10, 18, 44, 63, 44, 18, 10,
       8, 12, 18, 23, 18, 12,  8,
       7,  8, 10, 11, 10,  8,  7}},
    /* A plain Gaussian of 1.5 cells: coarser from near than eye, about as smooth from afar. */
    {"gauss", 3,
     { 1,  4,  8, 10,  8,  4,  1,
       4, 13, 25, 31, 25, 13,  4,
       8, 25, 48, 60, 48, 25,  8,
      10, 31, 60, 76, 60, 31, 10,
       8, 25, 48, 60, 48, 25,  8,
       4, 13, 25, 31, 25, 13,  4,
       1,  4,  8, 10,  8,  4,  1}},
    /* A Gaussian of 2.5 cells: for a plate seen from far away; coarse from near. */
    {"wide", 3,
     { 9, 13, 16, 18, 16, 13,  9,
      13, 19, 25, 27, 25, 19, 13,
      16, 25, 31, 34, 31, 25, 16,
      18, 27, 34, 37, 34, 27, 18,
      16, 25, 31, 34, 31, 25, 16,
      13, 19, 25, 27, 25, 19, 13,
       9, 13, 16, 18, 16, 13,  9}},
    /* 1 4 6 4 1 both ways, as in examples/plot.sheet: for a plate seen from near; loses more of the palest grays. */
    {"binomial5", 2,
     { 1,  4,  6,  4,  1,
       4, 16, 24, 16,  4,
       6, 24, 36, 24,  6,
       4, 16, 24, 16,  4,
       1,  4,  6,  4,  1}},
    /* 1 2 1 both ways, as in examples/knolls.sheet: small enough to be followed by hand. */
    {"binomial3", 1, {1, 2, 1, 2, 4, 2, 1, 2, 1}},
    /* No spread: each cell is black from gray 128 on; for line drawings. */
    {"point", 0, {1}},
    {NULL, 0, {0}},
};
