/*
 * platemaker: turns gray into a one-colour plate of dots by direct binary search, with a squared error that is proved
 * to be that of the dots. For C99 and later, and for C++; link with `pkg-config --cflags --libs platemaker`, or with
 * what `make lib` puts in target/lib. examples/library.c is a whole program; docs/GUIDE.md begins with recipes;
 * docs/SPECIFICATION.md has the sums, the rules, the formats and the exact condition of every refusal.
 *
 * Each function of the library but pm_version answers a status: 0, or a refusal number (enum pm_refusal;
 * pm_refusal_text has words for it). A comment that says what a function draws names all the numbers that it can
 * answer. Where several are due it is the least of them, unless the comment gives another order. On a refusal nothing
 * behind any pointer changes, save the byte offset of the three functions for sheets and that of pm_read_pfm.
 *
 * A buffer is a pointer and a length in elements. The length has to be the buffer's own: one that does not fit the
 * measures is refused (5), but none can be checked against the memory that is there. An empty buffer, of length 0, may
 * have NULL as its pointer; no other pointer may be NULL. Buffers and results of one call must not overlap.
 *
 *   measures  PM_MEASURES numbers, in the order of the constants below: width, height, radius, reach, kind of start
 *   psf       the spread: (2 * radius + 1)^2 bytes, row by row, with a sum of 1 to 1,024
 *   gray      one byte a cell, row by row: 0 is bare paper, 255 is black, as of lettering. A cell of gray 0 or 255 is
 *             locked: blank or a dot from the start on, and never changed. One that is to stay free has 1 or 254
 *   dots      one byte a cell: 0 is blank, 1 is a dot
 *   table     one number a cell: the filtered error. pm_start fills it, and the later calls keep it up to date
 *   stats     PM_STATS numbers, the ledger, in the order of the constants below. pm_start fills it, and the later calls
 *             keep it up to date. A number below 0 draws 21
 *
 * `struct pm_plate`, at the end of this file, holds all of these, so that no call is handed a dozen arguments in a row.
 *
 * There is no state between calls: calls on different buffers may run at the same time. A thread with 1 MiB of stack
 * has room for every call. By default threads have less with musl's libc (128 KiB): make them with 1 MiB there.
 */
#ifndef PLATEMAKER_H
#define PLATEMAKER_H

#include <stddef.h>
#include <stdint.h>

#ifdef __cplusplus
extern "C" {
#endif

/* The version of this header, as text and as a number: 1,000,000 * major + 1,000 * minor + patch. */
#define PM_VERSION_TEXT "3.1.0"
#define PM_VERSION 3001000

/* The version of the library that is linked: PM_VERSION where header and library belong together. */
uint32_t pm_version(void);

/* sizes that suffice for every plate */
enum {
    PM_MAX_SIDE = 256,     /* width, and height */
    PM_MAX_CELLS = 65536,  /* cells: the length of gray, dots and table */
    PM_MAX_PSF = 49,       /* entries of a psf */
    PM_MAX_SHEET = 393472, /* bytes of a sheet */
    PM_MAX_FILED = 393624, /* bytes of a filed sheet */
    PM_MAX_PBM = 8203,     /* bytes of a PBM that is written; one that is read may be longer, by its comments */
    PM_MAX_PGM = 65551,    /* bytes of a PGM that is written */
    PM_MAX_PFM = 262160    /* bytes of a PFM */
};

/* the numbers in measures */
enum {
    PM_MEASURE_WIDTH,  /* 1 to 256 */
    PM_MEASURE_HEIGHT, /* 1 to 256 */
    PM_MEASURE_RADIUS, /* of the psf, 0 to 3 */
    PM_MEASURE_REACH,  /* rows, and columns, that a swap spans at most, 0 to 6 */
    PM_MEASURE_START,  /* the kind of start: 0 blank where not locked, 1 ordered, 2 the dots given */
    PM_MEASURES        /* how many numbers there are */
};

/* the numbers in stats */
enum {
    PM_STATS_START_ERROR, /* the squared error at the start */
    PM_STATS_ERROR,       /* the squared error now */
    PM_STATS_START_DOTS,  /* the dots at the start */
    PM_STATS_ON,          /* toggles on */
    PM_STATS_OFF,         /* toggles off */
    PM_STATS_SWAPS,       /* swaps */
    PM_STATS              /* how many numbers there are */
};

/* the numbers in verdict, which pm_check_filed fills */
enum {
    PM_VERDICT_FIGURE,  /* the squared error as filed */
    PM_VERDICT_SQUARED, /* the squared error of the filed dots, by the sum */
    PM_VERDICT_AGREES,  /* 1 where these two are equal, else 0 */
    PM_VERDICT_FITS,    /* 1 where 21 is not drawn by the filed ledger, else 0 */
    PM_VERDICT_RESTS,   /* 1 where no toggle and no swap within reach, of cells that are not locked, lowers the squared
                           error, 0 where one does; -16 where a start would refuse the filed dots (16) */
    PM_VERDICT_CELLS,   /* width * height */
    PM_VERDICT          /* how many numbers there are */
};

/* the refusal numbers: docs/SPECIFICATION.md, Refusals, has the exact condition of each, and the order of each call */
enum pm_refusal {
    PM_REFUSED_SIZE = 1,         /* width or height */
    PM_REFUSED_RADIUS = 2,       /* radius */
    PM_REFUSED_REACH = 3,        /* reach */
    PM_REFUSED_START = 4,        /* kind of start */
    PM_REFUSED_LENGTH = 5,       /* a buffer of another length than it must have */
    PM_REFUSED_PSF = 6,          /* the sum of the psf */
    PM_REFUSED_DOT = 7,          /* a dot byte above 1 */
    PM_REFUSED_CELL = 8,         /* a named cell off the plate */
    PM_REFUSED_PAIR = 9,         /* a swap of a cell with itself, or farther than the reach */
    PM_REFUSED_BYTE = 10,        /* in a sheet, a byte that none has there, or its end */
    PM_REFUSED_NUMBER = 11,      /* in a sheet, a number outside its field */
    PM_REFUSED_ROOM = 12,        /* a buffer too short for what is read or written */
    PM_REFUSED_INPUT = 13,       /* an input too long: drawn by programs only */
    PM_REFUSED_PICTURE = 14,     /* the header or length of a PBM or PGM */
    PM_REFUSED_MAXIMUM = 15,     /* the maximum of a PGM */
    PM_REFUSED_LOCKED_DOT = 16,  /* dots that contradict a locked cell: a dot on gray 0, or none on gray 255 */
    PM_REFUSED_PFM = 17,         /* the header or length of a PFM */
    PM_REFUSED_SAMPLE = 18,      /* a sample of a PFM that is no shade: below 0, above 1, or no number */
    PM_REFUSED_TABLE = 20,       /* a table entry that is not that of the dots */
    PM_REFUSED_STATS = 21,       /* stats that do not fit the dots */
    PM_REFUSED_EQUAL = 22,       /* a swap of equal dots */
    PM_REFUSED_LOCKED_CELL = 23  /* an attempt that names a locked cell */
};

/* What a status says, in a few words without a full stop: a string that lasts. */
static inline const char *pm_refusal_text(uint32_t number) {
    switch (number) {
    case 0: return "not refused";
    case PM_REFUSED_SIZE: return "width or height outside 1 to 256";
    case PM_REFUSED_RADIUS: return "radius above 3";
    case PM_REFUSED_REACH: return "reach above 6";
    case PM_REFUSED_START: return "kind of start above 2";
    case PM_REFUSED_LENGTH: return "buffer of a wrong length";
    case PM_REFUSED_PSF: return "psf with a sum of 0 or above 1024";
    case PM_REFUSED_DOT: return "dot above 1";
    case PM_REFUSED_CELL: return "cell off the plate";
    case PM_REFUSED_PAIR: return "swap of a cell with itself or beyond the reach";
    case PM_REFUSED_BYTE: return "no sheet has this byte here, or it ends too early";
    case PM_REFUSED_NUMBER: return "number outside its field";
    case PM_REFUSED_ROOM: return "buffer too short";
    case PM_REFUSED_INPUT: return "input too long";
    case PM_REFUSED_PICTURE: return "not one whole raw PBM or PGM of 1 to 256 by 1 to 256 cells";
    case PM_REFUSED_MAXIMUM: return "maximum of a PGM other than 255";
    case PM_REFUSED_LOCKED_DOT: return "dot on gray 0, or none on gray 255, which are locked (1 and 254 are not)";
    case PM_REFUSED_PFM: return "not one whole gray PFM of 1 to 256 by 1 to 256 cells with the scale 1.0 or -1.0";
    case PM_REFUSED_SAMPLE: return "sample that is no number from 0 to 1";
    case PM_REFUSED_TABLE: return "table that is not that of the dots";
    case PM_REFUSED_STATS: return "ledger that does not fit the dots";
    case PM_REFUSED_EQUAL: return "swap of equal dots";
    case PM_REFUSED_LOCKED_CELL: return "attempt on gray 0 or 255, which are locked (1 and 254 are not)";
    default: return "unknown refusal";
    }
}

/* The autocorrelation of a psf: (4 * radius + 1)^2 numbers, row by row, by rising offset. Draws 2, 5, 6. */
uint32_t pm_autocorrelation(size_t radius, const uint8_t *psf, size_t psf_len, int32_t *out, size_t out_len);

/* The filtered error of every cell, into table. Draws 1, 2, 5, 6, 7. */
uint32_t pm_filtered_error(size_t width, size_t height, size_t radius, const uint8_t *psf, size_t psf_len,
                           const uint8_t *gray, size_t gray_len, const uint8_t *dots, size_t dots_len,
                           int32_t *table, size_t table_len);

/* The squared error, into *error. Draws 1, 2, 5, 6, 7. */
uint32_t pm_squared_error(size_t width, size_t height, size_t radius, const uint8_t *psf, size_t psf_len,
                          const uint8_t *gray, size_t gray_len, const uint8_t *dots, size_t dots_len, int64_t *error);

/*
 * The tone balance: by how much the dots are darker than the gray. D is 255 * dots less the sum of gray, N the number of
 * cells. *quotient and *remainder are the whole numbers with D = *quotient * N + *remainder, the remainder from 0 to
 * N - 1 also where D is negative: D = -1 and N = 4 gives -1 and 3. The plate is lighter than its ground exactly when
 * *quotient is below 0, as dark as it exactly when both are 0, and else darker. Draws 1, 5, 7.
 */
uint32_t pm_tone_balance(size_t width, size_t height, const uint8_t *gray, size_t gray_len, const uint8_t *dots,
                         size_t dots_len, int64_t *quotient, size_t *remainder);

/*
 * The calls on a plate. Each draws 5 where measures_len is not PM_MEASURES, before all else, and then 1 to 4 by the
 * numbers in measures.
 */

/*
 * A start of the kind given: writes dots, table and fresh stats. Kinds 0 and 1 set the locked cells; with kind 2 the
 * dots are read and stay. Draws 1 to 7, 16 (7 and 16 with kind 2 only).
 */
uint32_t pm_start(const size_t *measures, size_t measures_len, const uint8_t *psf, size_t psf_len, const uint8_t *gray,
                  size_t gray_len, uint8_t *dots, size_t dots_len, int32_t *table, size_t table_len, int64_t *stats,
                  size_t stats_len);

/*
 * An attempt to toggle the dot at (row, col). *change is what the toggle adds to the squared error. Below 0 it was
 * accepted: dots, table and stats have changed. Else it was declined, and they have not. Draws 1 to 7, 16, 8, 20, 21,
 * 23 (the cell is locked), in this order.
 */
uint32_t pm_try_toggle(const size_t *measures, size_t measures_len, const uint8_t *psf, size_t psf_len,
                       const uint8_t *gray, size_t gray_len, uint8_t *dots, size_t dots_len, int32_t *table,
                       size_t table_len, int64_t *stats, size_t stats_len, size_t row, size_t col, int64_t *change);

/*
 * An attempt to swap the dots at (row, col) and (row2, col2); *change as above. Draws 1 to 7, 16, 8, 9, 20, 21, 23 (one
 * of the cells is locked), 22, in this order.
 */
uint32_t pm_try_swap(const size_t *measures, size_t measures_len, const uint8_t *psf, size_t psf_len,
                     const uint8_t *gray, size_t gray_len, uint8_t *dots, size_t dots_len, int32_t *table,
                     size_t table_len, int64_t *stats, size_t stats_len, size_t row, size_t col, size_t row2,
                     size_t col2, int64_t *change);

/*
 * A toggle scan: a toggle is attempted at every cell that is not locked, row by row. *changes is how many were
 * accepted, *trials how many were attempted: one for each of these cells, so at most width * height. Draws 1 to 7, 16,
 * 20, 21.
 */
uint32_t pm_toggle_scan(const size_t *measures, size_t measures_len, const uint8_t *psf, size_t psf_len,
                        const uint8_t *gray, size_t gray_len, uint8_t *dots, size_t dots_len, int32_t *table,
                        size_t table_len, int64_t *stats, size_t stats_len, uint64_t *changes, uint64_t *trials);

/*
 * A swap scan: at every cell, row by row, the swaps with the cells within reach are attempted, farthest first, up to
 * the first that is accepted. Locked cells are passed over, as cell and as partner, and so are partners with the same
 * dot. *changes is how many were accepted, *trials how many were attempted, those accepted among them, by this rule and
 * not by what the library can spare itself: at most width * height * ((2 * reach + 1)^2 - 1). Draws 1 to 7, 16, 20, 21.
 */
uint32_t pm_swap_scan(const size_t *measures, size_t measures_len, const uint8_t *psf, size_t psf_len,
                      const uint8_t *gray, size_t gray_len, uint8_t *dots, size_t dots_len, int32_t *table,
                      size_t table_len, int64_t *stats, size_t stats_len, uint64_t *changes, uint64_t *trials);

/*
 * A settling: toggle scans until one accepts nothing, then a swap scan; if that accepted something, again. No toggle
 * and no swap within reach, of cells that are not locked, then lowers the squared error. *scans is how many scans were
 * made. Draws 1 to 7, 16, 20, 21.
 */
uint32_t pm_converge(const size_t *measures, size_t measures_len, const uint8_t *psf, size_t psf_len,
                     const uint8_t *gray, size_t gray_len, uint8_t *dots, size_t dots_len, int32_t *table,
                     size_t table_len, int64_t *stats, size_t stats_len, uint64_t *scans);

/*
 * Reads a sheet. psf, gray and dots may be longer than needed: those of the sheet stand at their front, and what lies
 * past stays. With start 0 or 1 dots are not touched. Draws 5 (measures of another length) before all else; then 10, 11
 * or 12, whichever has the leftmost place, 12 (a buffer too short) having the start of the third line and going first
 * there. *offset is written only on a refusal: the byte offset of the place, 0 with 5.
 */
uint32_t pm_read_sheet(const uint8_t *bytes, size_t bytes_len, uint8_t *psf, size_t psf_len, uint8_t *gray,
                       size_t gray_len, uint8_t *dots, size_t dots_len, size_t *measures, size_t measures_len,
                       size_t *offset);

/*
 * Writes a sheet with start 2 to the front of out, and its length to *length; PM_MAX_SHEET bytes always suffice. Draws
 * 5 (measures of another length) before all else; then 1 to 5, 7, and 12 (out too short). *offset is written only on a
 * refusal: out_len with 12, else 0. *length is written only on success.
 */
uint32_t pm_write_sheet(const size_t *measures, size_t measures_len, const uint8_t *psf, size_t psf_len,
                        const uint8_t *gray, size_t gray_len, const uint8_t *dots, size_t dots_len, uint8_t *out,
                        size_t out_len, size_t *length, size_t *offset);

/*
 * Checks a filed sheet: what the program `settle` prints for a plate, that is a sheet with start 2 and two lines of
 * figures, `before after on off swaps scans` and their numbers. Its ledger has before and after as the squared error at
 * the start and now, and the dots of the plate - on + off as those at the start; where that is below 0 it does not fit.
 * Dots that contradict a locked cell are not refused here: figure and ledger are judged as ever, and rest is -16.
 *
 * psf, gray, dots and table may be longer than needed: those of the sheet, and the table of its dots, stand at their
 * front, and what lies past stays. verdict has PM_VERDICT numbers. Draws 5 (verdict of another length) before all else;
 * 10, 11 and 12 as pm_read_sheet does, 11 also with a start other than 2 and a figure above 2^63 - 1, 12 also with a
 * table too short; then 6. *offset is written only on a refusal: the byte offset of the place, 0 with 5 and 6.
 */
uint32_t pm_check_filed(const uint8_t *bytes, size_t bytes_len, uint8_t *psf, size_t psf_len, uint8_t *gray,
                        size_t gray_len, uint8_t *dots, size_t dots_len, int32_t *table, size_t table_len,
                        int64_t *verdict, size_t verdict_len, size_t *offset);

/*
 * Raw Netpbm files: a PBM file (P4) has the dots of a plate, a PGM file (P5) its gray. One image a file, width and
 * height 1 to 256. A reader takes every header that the public layout allows, with comments and leading zeros; its dots
 * or gray may be longer than needed: what lies past the cells stays. *width, *height and *length are written only on
 * success.
 */

/*
 * Reads a PBM file: a set bit is a dot; spare bits are passed over. Draws 14 (header or length), 12 (dots too short),
 * in this order.
 */
uint32_t pm_read_pbm(const uint8_t *file, size_t file_len, uint8_t *dots, size_t dots_len, size_t *width,
                     size_t *height);

/*
 * Reads a PGM file: gray is 255 less the stored value, so that white is bare paper, black is lettering, and both are
 * locked. Draws 14 (header, or length at one byte a cell), 15 (a maximum other than 255), 12 (gray too short), in this
 * order.
 */
uint32_t pm_read_pgm(const uint8_t *file, size_t file_len, uint8_t *gray, size_t gray_len, size_t *width,
                     size_t *height);

/* Writes a PBM file to the front of out, its length to *length. Spare bits are 0. Draws 1, 5, 7, 12 (out too short). */
uint32_t pm_write_pbm(size_t width, size_t height, const uint8_t *dots, size_t dots_len, uint8_t *out, size_t out_len,
                      size_t *length);

/* Writes a PGM file to the front of out, its length to *length. The maximum is 255. Draws 1, 5, 12 (out too short). */
uint32_t pm_write_pgm(size_t width, size_t height, const uint8_t *gray, size_t gray_len, uint8_t *out, size_t out_len,
                      size_t *length);

/*
 * The dots of each row, into counts, one number a row. packed is what follows the header of a PBM file: rows of
 * (width + 7) / 8 bytes, the highest bit the leftmost cell. Spare bits are not counted. Draws 1, 5.
 */
uint32_t pm_count_rows(size_t width, size_t height, const uint8_t *packed, size_t packed_len, uint32_t *counts,
                       size_t counts_len);

/*
 * Reads a gray PFM file, as terrain packages write it, to the front of gray. The file is the lines `Pf`, `W H` and
 * `1.0` (big-endian) or `-1.0` (little-endian), each ended by LF alone, W and H from 1 to 256 without leading zeros,
 * one space between them; then a float of 32 bits (IEEE 754) for each cell, bottom row first; and nothing after. A
 * sample v from 0, black, to 1, white, becomes gray 255 - k, where k is the whole number nearest to 255 * v, worked
 * out exactly, and 128 at the one tie, v = 0.5. Minus zero is 0. Gray 0 and 255 are locked: v above 509/510 is bare
 * paper, v below 1/510 is lettering. What lies past the cells of gray stays. Draws 17 (header or length), 12 (gray too
 * short), 18 (a sample below 0, above 1, infinite or no number), in this order. *width, *height and *scale (1.0 or
 * -1.0) are written only on success, *offset only with 18: the place in the file, in bytes, of the first such sample,
 * lowest row first.
 */
uint32_t pm_read_pfm(const uint8_t *file, size_t file_len, uint8_t *gray, size_t gray_len, size_t *width,
                     size_t *height, float *scale, size_t *offset);

/*
 * A plate and its buffers in one place:
 *
 *     struct pm_plate plate = {.measures = {64, 8, 1, 3, 1}, .psf = {1, 2, 1, 2, 4, 2, 1, 2, 1},
 *                              .gray = gray, .dots = dots, .table = table, .room = 64 * 8};
 *     uint32_t status = pm_plate_start(&plate);
 *     if (status == 0) status = pm_plate_settle(&plate, &scans);
 *     if (status != 0) fprintf(stderr, "%s\n", pm_refusal_text(status));
 *
 * gray, dots and table are the caller's, each with room for so many cells, PM_MAX_CELLS for any plate. measures, psf,
 * gray and, with start 2, dots are filled in by the caller or by pm_plate_read; table and stats by pm_plate_start.
 *
 * Each function hands all of this to one call from above and answers its status. gray, dots and table are handed on
 * with the length that the measures name, or with room where that is less, which the call then refuses (5).
 */
struct pm_plate {
    size_t measures[PM_MEASURES];
    uint8_t psf[PM_MAX_PSF]; /* of these the first (2 * radius + 1)^2 */
    uint8_t *gray;
    uint8_t *dots;
    int32_t *table;
    size_t room; /* cells that each of gray, dots and table can hold */
    int64_t stats[PM_STATS];
};

/* How many cells a plate has; 0 where its width or height is refused. */
static inline size_t pm_plate_cells(const struct pm_plate *plate) {
    size_t width = plate->measures[PM_MEASURE_WIDTH], height = plate->measures[PM_MEASURE_HEIGHT];
    return width <= PM_MAX_SIDE && height <= PM_MAX_SIDE ? width * height : 0;
}

/* How many entries its psf has; 0 where its radius is refused. */
static inline size_t pm_plate_entries(const struct pm_plate *plate) {
    size_t radius = plate->measures[PM_MEASURE_RADIUS];
    return radius <= 3 ? (2 * radius + 1) * (2 * radius + 1) : 0;
}

/* The length of gray, dots and table that a call is handed. */
static inline size_t pm_plate_length(const struct pm_plate *plate) {
    size_t cells = pm_plate_cells(plate);
    return cells <= plate->room ? cells : plate->room;
}

/* pm_read_sheet, into measures, psf, gray and, with start 2, dots. Draws 12 where there is too little room. */
static inline uint32_t pm_plate_read(struct pm_plate *plate, const uint8_t *bytes, size_t bytes_len, size_t *offset) {
    return pm_read_sheet(bytes, bytes_len, plate->psf, PM_MAX_PSF, plate->gray, plate->room, plate->dots, plate->room,
                         plate->measures, PM_MEASURES, offset);
}

/* pm_write_sheet, of the plate. */
static inline uint32_t pm_plate_write(const struct pm_plate *plate, uint8_t *out, size_t out_len, size_t *length,
                                      size_t *offset) {
    size_t cells = pm_plate_length(plate);
    return pm_write_sheet(plate->measures, PM_MEASURES, plate->psf, pm_plate_entries(plate), plate->gray, cells,
                          plate->dots, cells, out, out_len, length, offset);
}

/* pm_start, of the plate. */
static inline uint32_t pm_plate_start(struct pm_plate *plate) {
    size_t cells = pm_plate_length(plate);
    return pm_start(plate->measures, PM_MEASURES, plate->psf, pm_plate_entries(plate), plate->gray, cells, plate->dots,
                    cells, plate->table, cells, plate->stats, PM_STATS);
}

/* pm_toggle_scan, of the plate. */
static inline uint32_t pm_plate_toggle_scan(struct pm_plate *plate, uint64_t *changes, uint64_t *trials) {
    size_t cells = pm_plate_length(plate);
    return pm_toggle_scan(plate->measures, PM_MEASURES, plate->psf, pm_plate_entries(plate), plate->gray, cells,
                          plate->dots, cells, plate->table, cells, plate->stats, PM_STATS, changes, trials);
}

/* pm_swap_scan, of the plate. */
static inline uint32_t pm_plate_swap_scan(struct pm_plate *plate, uint64_t *changes, uint64_t *trials) {
    size_t cells = pm_plate_length(plate);
    return pm_swap_scan(plate->measures, PM_MEASURES, plate->psf, pm_plate_entries(plate), plate->gray, cells,
                        plate->dots, cells, plate->table, cells, plate->stats, PM_STATS, changes, trials);
}

/* pm_converge, of the plate. */
static inline uint32_t pm_plate_settle(struct pm_plate *plate, uint64_t *scans) {
    size_t cells = pm_plate_length(plate);
    return pm_converge(plate->measures, PM_MEASURES, plate->psf, pm_plate_entries(plate), plate->gray, cells,
                       plate->dots, cells, plate->table, cells, plate->stats, PM_STATS, scans);
}

/* pm_squared_error, of the plate: worked out afresh from its dots. */
static inline uint32_t pm_plate_measure(const struct pm_plate *plate, int64_t *error) {
    size_t cells = pm_plate_length(plate);
    return pm_squared_error(plate->measures[PM_MEASURE_WIDTH], plate->measures[PM_MEASURE_HEIGHT],
                            plate->measures[PM_MEASURE_RADIUS], plate->psf, pm_plate_entries(plate), plate->gray, cells,
                            plate->dots, cells, error);
}

/* pm_tone_balance, of the plate. */
static inline uint32_t pm_plate_balance(const struct pm_plate *plate, int64_t *quotient, size_t *remainder) {
    size_t cells = pm_plate_length(plate);
    return pm_tone_balance(plate->measures[PM_MEASURE_WIDTH], plate->measures[PM_MEASURE_HEIGHT], plate->gray, cells,
                           plate->dots, cells, quotient, remainder);
}

#ifdef __cplusplus
}
#endif

#endif
