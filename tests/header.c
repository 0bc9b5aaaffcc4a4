/*
 * What include/platemaker.h says, tried on the library: versions, refusal texts, sizes that suffice, empty buffers at
 * NULL, measures of a wrong length, locked cells, the trials of scans, tone balances, PFM files and their samples, what
 * struct pm_plate hands on, and the stack of a thread with 1 MiB.
 *
 *     header          all of it
 *     header --small  without the largest plates, for a slow machine such as valgrind's
 *     header --stack  all of it, with the bytes of stack that each call overwrites
 *
 * The last line is 'N passed, M failed'.
 */
#define _DEFAULT_SOURCE
#include <inttypes.h>
#include <pthread.h>
#include <stdarg.h>
#include <stdio.h>
#include <stdlib.h>
#include <string.h>
#include <sys/mman.h>

#include "platemaker.h"

enum { RADIUS = 3, REACH = 6, ENTRIES = 49, OFFSETS = 169, STACK = 1 << 20, BEFORE = 7 };

/* the buffers of all calls: a name for each kind of argument */
enum { MEASURES, PSF, GRAY, DOTS, TABLE, STATS, VERDICT, COUNTS, OFFSET_TABLE, INPUT, OUT, BUFFERS };

/* a buffer as it is handed to a call, and how it was before */
static struct lent {
    void *at;
    size_t length;
    void *held;
    void *copy;
    size_t bytes;
} lent[BUFFERS];

static const size_t element[BUFFERS] = {sizeof(size_t), 1, 1, 1, sizeof(int32_t), sizeof(int64_t), sizeof(int64_t),
                                        sizeof(uint32_t), sizeof(int32_t), 1, 1};

/* the results of all calls that are no buffers; the last float is of no call, so that there is no padding to compare */
static struct results {
    int64_t change, error, quotient;
    uint64_t changes, trials;
    size_t remainder, offset, length, width, height;
    float scale, past_scale;
} results;

static const struct results untouched = {BEFORE, BEFORE, BEFORE, BEFORE, BEFORE, BEFORE,
                                         BEFORE, BEFORE, BEFORE, BEFORE, BEFORE, BEFORE};

static size_t width, height;
static int passed, failed;

/* counts a case */
static void check(int good, const char *format, ...) {
    va_list words;
    if (good) {
        passed++;
        return;
    }
    failed++;
    va_start(words, format);
    vprintf(format, words);
    va_end(words);
    puts(": wrong");
}

/* The calls. */

enum { AUTOCORRELATION, FILTERED_ERROR, SQUARED_ERROR, TONE_BALANCE, START, TRY_TOGGLE, TRY_SWAP, TOGGLE_SCAN,
       SWAP_SCAN, CONVERGE, READ_SHEET, WRITE_SHEET, CHECK_FILED, READ_PBM, READ_PGM, READ_PFM, WRITE_PBM, WRITE_PGM,
       COUNT_ROWS, CALLS };

#define TAKES(buffer) (1u << (buffer))
#define TARGET (TAKES(PSF) | TAKES(GRAY) | TAKES(DOTS))
#define LATER (TARGET | TAKES(MEASURES) | TAKES(TABLE) | TAKES(STATS))

/* a call, and the buffers that it takes */
static const struct {
    const char *name;
    unsigned takes;
} calls[CALLS] = {
    [AUTOCORRELATION] = {"pm_autocorrelation", TAKES(PSF) | TAKES(OFFSET_TABLE)},
    [FILTERED_ERROR] = {"pm_filtered_error", TARGET | TAKES(TABLE)},
    [SQUARED_ERROR] = {"pm_squared_error", TARGET},
    [TONE_BALANCE] = {"pm_tone_balance", TAKES(GRAY) | TAKES(DOTS)},
    [START] = {"pm_start", LATER},
    [TRY_TOGGLE] = {"pm_try_toggle", LATER},
    [TRY_SWAP] = {"pm_try_swap", LATER},
    [TOGGLE_SCAN] = {"pm_toggle_scan", LATER},
    [SWAP_SCAN] = {"pm_swap_scan", LATER},
    [CONVERGE] = {"pm_converge", LATER},
    [READ_SHEET] = {"pm_read_sheet", TARGET | TAKES(MEASURES) | TAKES(INPUT)},
    [WRITE_SHEET] = {"pm_write_sheet", TARGET | TAKES(MEASURES) | TAKES(OUT)},
    [CHECK_FILED] = {"pm_check_filed", TARGET | TAKES(TABLE) | TAKES(VERDICT) | TAKES(INPUT)},
    [READ_PBM] = {"pm_read_pbm", TAKES(DOTS) | TAKES(INPUT)},
    [READ_PGM] = {"pm_read_pgm", TAKES(GRAY) | TAKES(INPUT)},
    [READ_PFM] = {"pm_read_pfm", TAKES(GRAY) | TAKES(INPUT)},
    [WRITE_PBM] = {"pm_write_pbm", TAKES(DOTS) | TAKES(OUT)},
    [WRITE_PGM] = {"pm_write_pgm", TAKES(GRAY) | TAKES(OUT)},
    [COUNT_ROWS] = {"pm_count_rows", TAKES(INPUT) | TAKES(COUNTS)},
};

#define LENT(buffer) lent[buffer].at, lent[buffer].length
#define LENT_TARGET LENT(PSF), LENT(GRAY), LENT(DOTS)
#define LENT_LATER LENT(MEASURES), LENT_TARGET, LENT(TABLE), LENT(STATS)

static uint32_t call(int which) {
    struct results *r = &results;
    switch (which) {
    case AUTOCORRELATION: return pm_autocorrelation(RADIUS, LENT(PSF), LENT(OFFSET_TABLE));
    case FILTERED_ERROR: return pm_filtered_error(width, height, RADIUS, LENT_TARGET, LENT(TABLE));
    case SQUARED_ERROR: return pm_squared_error(width, height, RADIUS, LENT_TARGET, &r->error);
    case TONE_BALANCE: return pm_tone_balance(width, height, LENT(GRAY), LENT(DOTS), &r->quotient, &r->remainder);
    case START: return pm_start(LENT_LATER);
    case TRY_TOGGLE: return pm_try_toggle(LENT_LATER, height - 1, width - 1, &r->change);
    case TRY_SWAP: return pm_try_swap(LENT_LATER, 0, 0, 0, 1, &r->change);
    case TOGGLE_SCAN: return pm_toggle_scan(LENT_LATER, &r->changes, &r->trials);
    case SWAP_SCAN: return pm_swap_scan(LENT_LATER, &r->changes, &r->trials);
    case CONVERGE: return pm_converge(LENT_LATER, &r->changes);
    case READ_SHEET: return pm_read_sheet(LENT(INPUT), LENT_TARGET, LENT(MEASURES), &r->offset);
    case WRITE_SHEET: return pm_write_sheet(LENT(MEASURES), LENT_TARGET, LENT(OUT), &r->length, &r->offset);
    case CHECK_FILED: return pm_check_filed(LENT(INPUT), LENT_TARGET, LENT(TABLE), LENT(VERDICT), &r->offset);
    case READ_PBM: return pm_read_pbm(LENT(INPUT), LENT(DOTS), &r->width, &r->height);
    case READ_PGM: return pm_read_pgm(LENT(INPUT), LENT(GRAY), &r->width, &r->height);
    case READ_PFM: return pm_read_pfm(LENT(INPUT), LENT(GRAY), &r->width, &r->height, &r->scale, &r->offset);
    case WRITE_PBM: return pm_write_pbm(width, height, LENT(DOTS), LENT(OUT), &r->length);
    case WRITE_PGM: return pm_write_pgm(width, height, LENT(GRAY), LENT(OUT), &r->length);
    case COUNT_ROWS: return pm_count_rows(width, height, LENT(INPUT), LENT(COUNTS));
    default: return 0;
    }
}

/* Their buffers, each a block of just its length. */

static void *block(size_t bytes) {
    void *at = calloc(bytes, 1);
    if (at == NULL) {
        puts("no memory\n0 passed, 1 failed");
        exit(1);
    }
    return at;
}

static void lend(int buffer, size_t length) {
    struct lent *l = &lent[buffer];
    free(l->held);
    free(l->copy);
    l->bytes = length * element[buffer];
    l->at = l->held = block(l->bytes);
    l->copy = block(l->bytes);
    l->length = length;
}

static void lend_input(const uint8_t *bytes, size_t length) {
    lend(INPUT, length);
    memcpy(lent[INPUT].at, bytes, length);
}

/* how the buffers and results stand before a call */
static void note(void) {
    for (int i = 0; i < BUFFERS; i++) memcpy(lent[i].copy, lent[i].held, lent[i].bytes);
    results = untouched;
}

/* whether a call has left all alone but the offset */
static int unchanged(void) {
    struct results left = results;
    for (int i = 0; i < BUFFERS; i++)
        if (memcmp(lent[i].copy, lent[i].held, lent[i].bytes) != 0) return 0;
    left.offset = BEFORE;
    return memcmp(&left, &untouched, sizeof left) == 0;
}

/* a mirrored spread with entries that differ, and a gray of three digits with light and dark */
static void fill(void) {
    const size_t measures[PM_MEASURES] = {width, height, RADIUS, REACH, 1};
    uint8_t *psf = lent[PSF].at, *gray = lent[GRAY].at;
    memcpy(lent[MEASURES].at, measures, sizeof measures);
    for (size_t i = 0; i < ENTRIES; i++) psf[i] = (uint8_t)(1 + (i < 24 ? i : 48 - i));
    for (size_t i = 0; i < width * height; i++) gray[i] = (uint8_t)(100 + i * 23 % 101 + i / width * 50 / height);
}

/* the scale of a PFM that is big-endian, and of one that is little-endian */
static const char *const scales[] = {"1.0", "-1.0"};

/* the lines of a PFM before its samples; their length */
static size_t write_lines(uint8_t *file, size_t wide, size_t high, int little) {
    return (size_t)sprintf((char *)file, "Pf\n%zu %zu\n%s\n", wide, high, scales[little]);
}

static void write_sample(uint8_t *at, uint32_t bits, int little) {
    for (int i = 0; i < 4; i++) at[little ? i : 3 - i] = (uint8_t)(bits >> 8 * i);
}

/* a PFM with the gray of the plate; its length */
static size_t write_pfm(uint8_t *file, int little) {
    const uint8_t *gray = lent[GRAY].at;
    size_t at = write_lines(file, width, height, little);
    for (size_t row = height; row-- > 0;) {
        for (size_t col = 0; col < width; col++, at += 4) {
            float sample = (float)(255 - gray[row * width + col]) / 255;
            uint32_t bits = 0;
            memcpy(&bits, &sample, sizeof bits);
            write_sample(file + at, bits, little);
        }
    }
    return at;
}

/* what a call reads: the sheet of the plate, its filed sheet, its PBM, its PGM, its PFM, or its packed rows */
static void fill_input(int which) {
    size_t length = 0, offset = 0, skipped = 0;
    uint8_t *room = block(PM_MAX_FILED);
    uint32_t status = 0;
    if (which == READ_PBM || which == COUNT_ROWS) {
        status = pm_write_pbm(width, height, LENT(DOTS), room, PM_MAX_PBM, &length);
    } else if (which == READ_PGM) {
        status = pm_write_pgm(width, height, LENT(GRAY), room, PM_MAX_PGM, &length);
    } else if (which == READ_PFM) {
        length = write_pfm(room, 1);
    } else {
        status = pm_write_sheet(LENT(MEASURES), LENT_TARGET, room, PM_MAX_SHEET, &length, &offset);
    }
    if (which == COUNT_ROWS) skipped = length - (width + 7) / 8 * height;
    if (which == CHECK_FILED) {
        const int64_t *stats = lent[STATS].at;
        length += (size_t)snprintf((char *)room + length, PM_MAX_FILED - length,
                                   "before after on off swaps scans\n%" PRId64 " %" PRId64 " 0 0 0 0\n",
                                   stats[PM_STATS_START_ERROR], stats[PM_STATS_ERROR]);
    }
    check(status == 0, "the input of %s", calls[which].name);
    lend_input(room + skipped, length - skipped);
    free(room);
}

/* lends a call all that it needs to answer 0, on a plate of this size */
static void prepare(int which, size_t wide, size_t high) {
    const size_t lengths[INPUT] = {PM_MEASURES, ENTRIES, wide * high, wide * high, wide * high, PM_STATS, PM_VERDICT,
                                   high, OFFSETS};
    width = wide;
    height = high;
    for (int i = 0; i < INPUT; i++) lend(i, lengths[i]);
    lend(OUT, PM_MAX_SHEET);
    fill();
    check(call(START) == 0, "the start for %s", calls[which].name);
    fill_input(which);
    note();
}

/* Versions, texts and sizes. */

static void check_version(void) {
    unsigned major = 0, minor = 0, patch = 0;
    char text[32];
    check(sscanf(PM_VERSION_TEXT, "%u.%u.%u", &major, &minor, &patch) == 3, "the form of PM_VERSION_TEXT");
    snprintf(text, sizeof text, "%u.%u.%u", major, minor, patch);
    check(strcmp(text, PM_VERSION_TEXT) == 0, "PM_VERSION_TEXT and no more");
    check(1000000 * major + 1000 * minor + patch == PM_VERSION, "PM_VERSION by its text");
    check(pm_version() == PM_VERSION, "pm_version");
}

/* every number that can be drawn has a text of its own, and no other has */
static void check_texts(void) {
    const char *unknown = pm_refusal_text(UINT32_MAX);
    for (uint32_t number = 0; number < 40; number++) {
        int drawn = number <= 18 || (number >= 20 && number <= 23), same = 0;
        const char *text = pm_refusal_text(number);
        check((strcmp(text, unknown) != 0) == drawn, "the text of %" PRIu32, number);
        for (uint32_t other = 0; drawn && other < number; other++) same += strcmp(text, pm_refusal_text(other)) == 0;
        check(same == 0, "the text of %" PRIu32 " is another's", number);
    }
}

/* a call that writes fills the size named, and draws 12 with a byte less */
static void check_written(int which, size_t most) {
    lend(OUT, most);
    note();
    check(call(which) == 0 && results.length == most, "%s into %zu bytes", calls[which].name, most);
    lend(OUT, most - 1);
    note();
    check(call(which) == PM_REFUSED_ROOM && unchanged(), "%s into %zu bytes", calls[which].name, most - 1);
    check(which != WRITE_SHEET || results.offset == most - 1, "the offset of %s", calls[which].name);
}

/* a filed sheet with the longest figures is read to its end, and then its psf is refused; no figure can be longer */
static void check_filed(void) {
    static uint8_t room[PM_MAX_FILED + 2];
    size_t sheet = 0, offset = 0;
    int wrote = pm_write_sheet(LENT(MEASURES), LENT_TARGET, room, PM_MAX_SHEET, &sheet, &offset) == 0;
    check(wrote, "the longest sheet");
    for (int longer = 0; longer <= 6; longer++) {
        size_t length = sheet + (size_t)sprintf((char *)room + sheet, "before after on off swaps scans\n");
        for (int i = 1; i <= 6; i++) {
            const char *figure = i == longer ? "10000000000000000000" : "9223372036854775807";
            length += (size_t)sprintf((char *)room + length, "%s%c", figure, i < 6 ? ' ' : '\n');
        }
        lend_input(room, length);
        note();
        uint32_t wanted = longer == 0 ? PM_REFUSED_PSF : PM_REFUSED_NUMBER;
        check(length == (size_t)PM_MAX_FILED + (longer != 0), "the length of the longest filed sheet, %d", longer);
        check(call(CHECK_FILED) == wanted && unchanged(), "the longest filed sheet, %d", longer);
    }
}

/* whether a PFM is read, and has this size; the offset stays */
static int reads_pfm(size_t wide, size_t high, int little) {
    struct results wanted = untouched;
    wanted.width = wide;
    wanted.height = high;
    wanted.scale = little ? -1 : 1;
    note();
    return call(READ_PFM) == 0 && memcmp(&results, &wanted, sizeof wanted) == 0;
}

/* whether it draws this number and leaves all alone but the offset, which is this one */
static int refuses_pfm(uint32_t number, size_t offset) {
    note();
    return call(READ_PFM) == number && unchanged() && results.offset == offset;
}

/* a PFM of the size named is read, and draws 17 with a byte less and with one more */
static void check_longest_pfm(void) {
    static uint8_t file[PM_MAX_PFM + 1];
    prepare(READ_PFM, PM_MAX_SIDE, PM_MAX_SIDE);
    check(write_pfm(file, 1) == PM_MAX_PFM, "the length of the longest PFM");
    lend_input(file, PM_MAX_PFM);
    check(reads_pfm(PM_MAX_SIDE, PM_MAX_SIDE, 1), "the longest PFM");
    lend_input(file, PM_MAX_PFM - 1);
    check(refuses_pfm(PM_REFUSED_PFM, BEFORE), "the longest PFM, a byte less");
    lend_input(file, PM_MAX_PFM + 1);
    check(refuses_pfm(PM_REFUSED_PFM, BEFORE), "the longest PFM, a byte more");
}

static void check_sizes(void) {
    size_t cells = PM_MAX_CELLS, entries = PM_MAX_PSF;
    check(cells == PM_MAX_SIDE * PM_MAX_SIDE && entries == ENTRIES, "PM_MAX_CELLS and PM_MAX_PSF");
    prepare(WRITE_SHEET, PM_MAX_SIDE, PM_MAX_SIDE);
    memset(lent[PSF].at, 255, ENTRIES);
    memset(lent[GRAY].at, 255, PM_MAX_CELLS);
    check_written(WRITE_SHEET, PM_MAX_SHEET);
    check_written(WRITE_PBM, PM_MAX_PBM);
    check_written(WRITE_PGM, PM_MAX_PGM);
    check_filed();
    check_longest_pfm();
}

/* Empty buffers, and measures of a wrong length. */

/* what an empty buffer draws where all else is good */
static uint32_t empty_draws(int which, int buffer) {
    int sheet = which == READ_SHEET || which == CHECK_FILED, pfm = which == READ_PFM;
    int picture = which == READ_PBM || which == READ_PGM || pfm;
    if (buffer == MEASURES || buffer == VERDICT) return PM_REFUSED_LENGTH;
    if (buffer == OUT) return PM_REFUSED_ROOM;
    if (!sheet && !picture) return PM_REFUSED_LENGTH;
    if (buffer != INPUT) return PM_REFUSED_ROOM;
    return sheet ? PM_REFUSED_BYTE : pfm ? PM_REFUSED_PFM : PM_REFUSED_PICTURE;
}

static void check_empty(int which, int buffer) {
    uint32_t wanted = empty_draws(which, buffer);
    lent[buffer].length = 0;
    check(call(which) == wanted && unchanged(), "%s, buffer %d empty", calls[which].name, buffer);
    size_t offset = results.offset;
    check(which != READ_PFM || offset == BEFORE, "%s, buffer %d empty: the offset", calls[which].name, buffer);
    note();
    lent[buffer].at = NULL;
    check(call(which) == wanted && unchanged(), "%s, buffer %d empty at NULL", calls[which].name, buffer);
    check(results.offset == offset, "%s, buffer %d empty at NULL: the offset", calls[which].name, buffer);
}

/* all buffers at NULL but one, or all */
static void empty_all(int but) {
    for (int i = 0; i < BUFFERS; i++) {
        if (i == but) continue;
        lent[i].at = NULL;
        lent[i].length = 0;
    }
}

static void check_all_empty(int which) {
    uint32_t wanted = which == READ_PBM || which == READ_PGM ? PM_REFUSED_PICTURE : PM_REFUSED_LENGTH;
    if (which == READ_PFM) wanted = PM_REFUSED_PFM;
    prepare(which, 5, 4);
    empty_all(BUFFERS);
    check(call(which) == wanted && unchanged(), "%s, all empty at NULL", calls[which].name);
}

/* measures of a wrong length draw 5 with all else good, and with all else bad; with sheets the offset is then 0 */
static void check_measures(int which, size_t length, int good) {
    size_t offset = which == READ_SHEET || which == WRITE_SHEET ? 0 : BEFORE;
    prepare(which, 5, 4);
    lend(MEASURES, length);
    if (!good) {
        memset(lent[MEASURES].at, 255, lent[MEASURES].bytes);
        empty_all(MEASURES);
        height = 0;
    }
    note();
    check(call(which) == PM_REFUSED_LENGTH && unchanged() && results.offset == offset, "%s, %zu measures",
          calls[which].name, length);
}

static void check_buffers(void) {
    for (int which = 0; which < CALLS; which++) {
        prepare(which, 5, 4);
        check(call(which) == 0, "%s, all good", calls[which].name);
        for (int buffer = 0; buffer < BUFFERS; buffer++) {
            if (!(calls[which].takes & TAKES(buffer))) continue;
            prepare(which, 5, 4);
            check_empty(which, buffer);
        }
        check_all_empty(which);
        if (!(calls[which].takes & TAKES(MEASURES))) continue;
        for (size_t length = 0; length <= PM_MEASURES + 1; length++) {
            if (length == PM_MEASURES) continue;
            check_measures(which, length, 0);
            check_measures(which, length, 1);
        }
    }
}

/* Numbers of the ledger below 0. */

static void check_stats(void) {
    for (int which = TRY_TOGGLE; which <= CONVERGE; which++) {
        for (int i = 0; i < PM_STATS; i++) {
            prepare(which, 5, 4);
            ((int64_t *)lent[STATS].at)[i] = i % 2 == 0 ? -1 : INT64_MIN;
            note();
            check(call(which) == PM_REFUSED_STATS && unchanged(), "%s, number %d below 0", calls[which].name, i);
        }
    }
}

/* Locked cells: a plate of 3 by 1 cells with paper, black and a gray between them. */

/* the dots and the kind of start that a call is handed, and the refusal it answers; a start then leaves these dots */
static const struct {
    uint8_t dots[3];
    size_t start;
    uint32_t at_start, later;
    uint8_t left[3];
} locks[] = {
    {{0, 1, 0}, 2, 0, 0, {0, 1, 0}},
    {{1, 1, 0}, 2, PM_REFUSED_LOCKED_DOT, PM_REFUSED_LOCKED_DOT, {1, 1, 0}},
    {{0, 0, 1}, 2, PM_REFUSED_LOCKED_DOT, PM_REFUSED_LOCKED_DOT, {0, 0, 1}},
    {{1, 0, 2}, 2, PM_REFUSED_DOT, PM_REFUSED_DOT, {1, 0, 2}},
    {{1, 0, 2}, 1, 0, PM_REFUSED_DOT, {0, 1, 1}},
    {{1, 0, 1}, 1, 0, PM_REFUSED_LOCKED_DOT, {0, 1, 1}},
    {{1, 0, 1}, 0, 0, PM_REFUSED_LOCKED_DOT, {0, 1, 0}},
};

/* the plate, with these dots and a psf that spreads nothing */
static struct pm_plate locked_plate(const uint8_t *dots, size_t start) {
    static uint8_t gray[3], held[3];
    static int32_t table[3];
    struct pm_plate plate = {.measures = {3, 1, 0, 2, start}, .psf = {1}, .gray = gray, .dots = held, .table = table,
                             .room = 3};
    memcpy(gray, (const uint8_t[]){0, 255, 130}, 3);
    memcpy(held, dots, 3);
    return plate;
}

#define OF_PLATE(p) (p).measures, PM_MEASURES, (p).psf, 1, (p).gray, 3, (p).dots, 3, (p).table, 3, (p).stats, PM_STATS

/* 16 straight after 7, so before 8 and 9; at a start with kind 2 only */
static void check_locked_dots(void) {
    for (size_t i = 0; i < sizeof locks / sizeof locks[0]; i++) {
        int64_t change = BEFORE;
        uint64_t changes = BEFORE, trials = BEFORE;
        struct pm_plate plate = locked_plate(locks[i].dots, locks[i].start);
        check(pm_plate_start(&plate) == locks[i].at_start, "the start of locked cells %zu", i);
        check(memcmp(plate.dots, locks[i].left, 3) == 0, "the dots of locked cells %zu", i);
        memcpy(plate.dots, locks[i].dots, 3);
        if (locks[i].later == 0) continue;
        check(pm_try_toggle(OF_PLATE(plate), 1, 0, &change) == locks[i].later, "a toggle off the plate, %zu", i);
        check(pm_try_swap(OF_PLATE(plate), 0, 0, 0, 0, &change) == locks[i].later, "a swap with itself, %zu", i);
        check(pm_plate_toggle_scan(&plate, &changes, &trials) == locks[i].later, "a toggle scan, locked cells %zu", i);
        check(pm_plate_swap_scan(&plate, &changes, &trials) == locks[i].later, "a swap scan, locked cells %zu", i);
        check(pm_plate_settle(&plate, &changes) == locks[i].later, "a settling of locked cells %zu", i);
        check(change == BEFORE && changes == BEFORE && trials == BEFORE, "the results of locked cells %zu", i);
    }
}

/* 23 after 21 and before 22, of either cell; what is locked stays */
static void check_locked_cells(void) {
    int64_t change = BEFORE;
    uint64_t scans = 0;
    struct pm_plate plate = locked_plate((const uint8_t[]){0, 1, 0}, 2);
    check(pm_plate_start(&plate) == 0, "a start for attempts on locked cells");
    plate.stats[PM_STATS_ERROR]++;
    check(pm_try_toggle(OF_PLATE(plate), 0, 0, &change) == PM_REFUSED_STATS, "21 before 23");
    plate.stats[PM_STATS_ERROR]--;
    check(pm_try_toggle(OF_PLATE(plate), 0, 0, &change) == PM_REFUSED_LOCKED_CELL, "a toggle of paper");
    check(pm_try_toggle(OF_PLATE(plate), 0, 1, &change) == PM_REFUSED_LOCKED_CELL, "a toggle of black");
    check(pm_try_swap(OF_PLATE(plate), 0, 0, 0, 2, &change) == PM_REFUSED_LOCKED_CELL, "a swap of paper, equal dots");
    check(pm_try_swap(OF_PLATE(plate), 0, 2, 0, 1, &change) == PM_REFUSED_LOCKED_CELL, "a swap with black");
    check(change == BEFORE, "the change of attempts on locked cells");
    check(pm_plate_settle(&plate, &scans) == 0 && memcmp(plate.dots, (const uint8_t[]){0, 1, 1}, 3) == 0,
          "a plate with locked cells settles");
}

/* the check is not refused; its rest number is -16 */
static void check_locked_filed(void) {
    static const char filed[] = "width height radius reach start\n1 1 0 0 2\npsf\n1\ngray\n255\ndots\n0\n"
                                "before after on off swaps scans\n65025 65025 0 0 0 2\n";
    static const int64_t wanted[PM_VERDICT] = {65025, 65025, 1, 1, -PM_REFUSED_LOCKED_DOT, 1};
    uint8_t psf[1], gray[1], dots[1];
    int32_t table[1];
    int64_t verdict[PM_VERDICT];
    size_t offset = 0;
    uint32_t status = pm_check_filed((const uint8_t *)filed, sizeof filed - 1, psf, 1, gray, 1, dots, 1, table, 1,
                                     verdict, PM_VERDICT, &offset);
    check(status == 0 && memcmp(verdict, wanted, sizeof wanted) == 0, "a filed sheet with a wrong locked cell");
}

static void check_locks(void) {
    check_locked_dots();
    check_locked_cells();
    check_locked_filed();
}

/* struct pm_plate. */

static uint8_t plate_gray[99], plate_dots[99];
static int32_t plate_table[99];

/* a plate that has the buffers of the call prepared, in longer ones */
static struct pm_plate plate_of(void) {
    struct pm_plate plate = {.gray = plate_gray, .dots = plate_dots, .table = plate_table, .room = 99};
    memcpy(plate.measures, lent[MEASURES].at, sizeof plate.measures);
    memcpy(plate.psf, lent[PSF].at, ENTRIES);
    memcpy(plate.stats, lent[STATS].at, sizeof plate.stats);
    memset(plate_gray, BEFORE, sizeof plate_gray);
    memset(plate_dots, BEFORE, sizeof plate_dots);
    for (int i = 0; i < 99; i++) plate_table[i] = BEFORE;
    memcpy(plate_gray, lent[GRAY].at, lent[GRAY].bytes);
    memcpy(plate_dots, lent[DOTS].at, lent[DOTS].bytes);
    memcpy(plate_table, lent[TABLE].at, lent[TABLE].bytes);
    return plate;
}

/* whether the plate has what the buffers have, and past its cells what was there */
static int alike(const struct pm_plate *plate) {
    size_t cells = width * height;
    int past = 1;
    for (size_t i = cells; i < 99; i++)
        past &= plate_gray[i] == BEFORE && plate_dots[i] == BEFORE && plate_table[i] == BEFORE;
    return past && memcmp(plate_gray, lent[GRAY].at, cells) == 0 && memcmp(plate_dots, lent[DOTS].at, cells) == 0 &&
           memcmp(plate_table, lent[TABLE].at, lent[TABLE].bytes) == 0 &&
           memcmp(plate->measures, lent[MEASURES].at, sizeof plate->measures) == 0 &&
           memcmp(plate->psf, lent[PSF].at, ENTRIES) == 0 &&
           memcmp(plate->stats, lent[STATS].at, sizeof plate->stats) == 0;
}

/* the function of struct pm_plate for a call */
static uint32_t call_plate(int which, struct pm_plate *plate, struct results *r, uint8_t *out, size_t out_len) {
    switch (which) {
    case SQUARED_ERROR: return pm_plate_measure(plate, &r->error);
    case TONE_BALANCE: return pm_plate_balance(plate, &r->quotient, &r->remainder);
    case START: return pm_plate_start(plate);
    case TOGGLE_SCAN: return pm_plate_toggle_scan(plate, &r->changes, &r->trials);
    case SWAP_SCAN: return pm_plate_swap_scan(plate, &r->changes, &r->trials);
    case CONVERGE: return pm_plate_settle(plate, &r->changes);
    case READ_SHEET: return pm_plate_read(plate, LENT(INPUT), &r->offset);
    default: return pm_plate_write(plate, out, out_len, &r->length, &r->offset);
    }
}

static const int plate_calls[] = {SQUARED_ERROR, TONE_BALANCE, START, TOGGLE_SCAN, SWAP_SCAN, CONVERGE, READ_SHEET,
                                  WRITE_SHEET};
enum { PLATE_CALLS = sizeof plate_calls / sizeof plate_calls[0] };

/* does what the call does */
static void check_same(int which) {
    uint8_t *out = block(PM_MAX_SHEET);
    struct results r = untouched;
    prepare(which, 9, 7);
    struct pm_plate plate = plate_of();
    check(pm_plate_cells(&plate) == 63 && pm_plate_entries(&plate) == ENTRIES, "the lengths of a plate");
    uint32_t status = call_plate(which, &plate, &r, out, PM_MAX_SHEET);
    check(status == 0 && call(which) == 0, "a plate for %s", calls[which].name);
    check(alike(&plate) && memcmp(&r, &results, sizeof r) == 0, "a plate as %s", calls[which].name);
    check(memcmp(out, lent[OUT].at, PM_MAX_SHEET) == 0, "a plate as %s: the output", calls[which].name);
    free(out);
}

/* a plate with one thing wrong, or several, is refused as document 01 orders it */
struct mistake {
    const char *what;
    uint32_t number;
    size_t width, height, radius, reach, start, room;
};

static const struct mistake mistakes[] = {
    {"width 300", PM_REFUSED_SIZE, 300, 7, 3, 6, 1, 99},
    {"width 0", PM_REFUSED_SIZE, 0, 7, 3, 6, 1, 99},
    {"height 257", PM_REFUSED_SIZE, 9, 257, 3, 6, 1, 99},
    {"the largest width and height", PM_REFUSED_SIZE, SIZE_MAX, SIZE_MAX, 3, 6, 1, 99},
    {"width 300, radius 9, no room", PM_REFUSED_SIZE, 300, 7, 9, 7, 3, 0},
    {"radius 9", PM_REFUSED_RADIUS, 9, 7, 9, 6, 1, 99},
    {"radius 4", PM_REFUSED_RADIUS, 9, 7, 4, 6, 1, 99},
    {"the largest radius", PM_REFUSED_RADIUS, 9, 7, SIZE_MAX, 6, 1, 99},
    {"radius 9, reach 7, start 3, no room", PM_REFUSED_RADIUS, 9, 7, 9, 7, 3, 0},
    {"reach 7", PM_REFUSED_REACH, 9, 7, 3, 7, 1, 99},
    {"reach 7, start 3, a cell of room too few", PM_REFUSED_REACH, 9, 7, 3, 7, 3, 62},
    {"start 3", PM_REFUSED_START, 9, 7, 3, 6, 3, 99},
    {"start 3, a cell of room too few", PM_REFUSED_START, 9, 7, 3, 6, 3, 62},
    {"a cell of room too few", PM_REFUSED_LENGTH, 9, 7, 3, 6, 1, 62},
    {"no room", PM_REFUSED_LENGTH, 9, 7, 3, 6, 1, 0},
};

static void check_mistake(int which, const struct mistake *m) {
    static uint8_t out[1000];
    const size_t measures[PM_MEASURES] = {m->width, m->height, m->radius, m->reach, m->start};
    struct results r = untouched;
    uint32_t wanted = m->number;
    prepare(which, 9, 7);
    struct pm_plate plate = plate_of();
    memcpy(plate.measures, measures, sizeof measures);
    plate.room = m->room;
    check((pm_plate_cells(&plate) == 0) == (wanted == PM_REFUSED_SIZE), "the cells of a plate: %s", m->what);
    check((pm_plate_entries(&plate) == 0) == (m->radius > 3), "the entries of a plate: %s", m->what);
    if (m->room == 0) plate.gray = plate.dots = NULL;
    if (m->room == 0) plate.table = NULL;
    /* a measure that is not handed to it: what is left is the room */
    if ((which == SQUARED_ERROR && (wanted == PM_REFUSED_REACH || wanted == PM_REFUSED_START)) ||
        (which == TONE_BALANCE && wanted != PM_REFUSED_SIZE))
        wanted = m->room < 63 ? PM_REFUSED_LENGTH : 0;
    if (which == READ_SHEET) wanted = m->room < 63 ? PM_REFUSED_ROOM : 0;
    check(call_plate(which, &plate, &r, out, sizeof out) == wanted, "a plate for %s: %s", calls[which].name, m->what);
    r.offset = BEFORE;
    if (wanted != 0) check(memcmp(&r, &untouched, sizeof r) == 0, "results of %s: %s", calls[which].name, m->what);
    if (wanted == 0) return;
    check(memcmp(plate.measures, measures, sizeof measures) == 0, "measures of %s: %s", calls[which].name, m->what);
    memcpy(plate.measures, lent[MEASURES].at, sizeof plate.measures);
    check(alike(&plate), "buffers of %s: %s", calls[which].name, m->what);
}

/* what is wrong past the measures: psf, dots, table, stats */
static void check_contents(void) {
    struct results r = untouched;
    prepare(CONVERGE, 9, 7);
    struct pm_plate plate = plate_of();
    plate.stats[PM_STATS_ERROR]++;
    check(pm_plate_settle(&plate, &r.changes) == PM_REFUSED_STATS, "a plate with a wrong ledger");
    plate.table[62]++;
    check(pm_plate_toggle_scan(&plate, &r.changes, &r.trials) == PM_REFUSED_TABLE, "a plate with a wrong table");
    plate.dots[62] = 2;
    check(pm_plate_swap_scan(&plate, &r.changes, &r.trials) == PM_REFUSED_DOT, "a plate with a wrong dot");
    check(pm_plate_measure(&plate, &r.error) == PM_REFUSED_DOT, "a wrong dot measured");
    check(pm_plate_balance(&plate, &r.quotient, &r.remainder) == PM_REFUSED_DOT, "a wrong dot balanced");
    memset(plate.psf, 255, sizeof plate.psf);
    check(pm_plate_start(&plate) == PM_REFUSED_PSF, "a plate with a wrong psf");
    check(memcmp(&r, &untouched, sizeof r) == 0, "results of wrong plates");
}

static void check_plates(void) {
    for (int i = 0; i < PLATE_CALLS; i++) {
        check_same(plate_calls[i]);
        for (size_t m = 0; m < sizeof mistakes / sizeof mistakes[0]; m++) check_mistake(plate_calls[i], &mistakes[m]);
    }
    check_contents();
}

/* The trials of scans, on plates of at most four cells with a psf that spreads nothing. */

static const struct {
    const char *what;
    size_t width, height, reach;
    uint8_t gray[4], dots[4];
    uint64_t toggles, toggle_trials, swaps, swap_trials;
} trials[] = {
    {"at rest, reach 1", 2, 2, 1, {128, 127, 127, 128}, {1, 0, 0, 1}, 0, 4, 0, 8},
    {"at rest, reach 6", 2, 2, 6, {128, 127, 127, 128}, {1, 0, 0, 1}, 0, 4, 0, 8},
    {"no reach", 2, 2, 0, {128, 127, 127, 128}, {1, 0, 0, 1}, 0, 4, 0, 0},
    {"equal dots", 2, 2, 1, {1, 1, 1, 1}, {0, 0, 0, 0}, 0, 4, 0, 0},
    {"the farthest partner is accepted", 3, 1, 2, {10, 10, 200}, {1, 0, 0}, 2, 3, 1, 4},
    {"the nearer partner is accepted", 3, 1, 2, {20, 200, 10}, {1, 0, 0}, 2, 3, 1, 5},
    {"none is accepted within reach", 3, 1, 1, {10, 10, 200}, {1, 0, 0}, 2, 3, 0, 2},
    {"partners that are locked", 4, 1, 3, {100, 0, 255, 200}, {1, 0, 1, 0}, 2, 2, 1, 2},
    {"all but one locked", 3, 1, 2, {0, 255, 130}, {0, 1, 0}, 1, 1, 0, 0},
    {"all locked", 2, 1, 1, {0, 255}, {0, 1}, 0, 0, 0, 0},
};

/* starts the plate and scans it; on a refused scan both results stay */
static void check_scan(size_t i, int which, uint64_t accepted, uint64_t tried) {
    uint8_t gray[4], dots[4];
    int32_t table[4];
    struct results r = untouched;
    struct pm_plate plate = {.measures = {trials[i].width, trials[i].height, 0, trials[i].reach, 2}, .psf = {1},
                             .gray = gray, .dots = dots, .table = table, .room = 4};
    const char *name = calls[which].name;
    memcpy(gray, trials[i].gray, 4);
    memcpy(dots, trials[i].dots, 4);
    check(pm_plate_start(&plate) == 0, "a start for %s, %s", name, trials[i].what);
    plate.stats[PM_STATS_ERROR]++;
    check(call_plate(which, &plate, &r, NULL, 0) == PM_REFUSED_STATS && memcmp(&r, &untouched, sizeof r) == 0,
          "%s refused, %s", name, trials[i].what);
    plate.stats[PM_STATS_ERROR]--;
    check(call_plate(which, &plate, &r, NULL, 0) == 0, "%s, %s", name, trials[i].what);
    check(r.changes == accepted && r.trials == tried, "%" PRIu64 " changes and %" PRIu64 " trials by %s, %s",
          r.changes, r.trials, name, trials[i].what);
    r.changes = r.trials = BEFORE;
    check(memcmp(&r, &untouched, sizeof r) == 0, "other results of %s, %s", name, trials[i].what);
}

static void check_trials(void) {
    for (size_t i = 0; i < sizeof trials / sizeof trials[0]; i++) {
        check_scan(i, TOGGLE_SCAN, trials[i].toggles, trials[i].toggle_trials);
        check_scan(i, SWAP_SCAN, trials[i].swaps, trials[i].swap_trials);
    }
}

/* The tone balance of four cells: lighter, as dark and darker than their ground; dots may contradict locked cells. */

static const struct {
    const char *what;
    uint8_t gray[4], dots[4];
    int64_t quotient;
    size_t remainder;
} balances[] = {
    {"one below", {255, 1, 0, 0}, {1, 0, 0, 0}, -1, 3},
    {"four below", {255, 4, 0, 0}, {1, 0, 0, 0}, -1, 0},
    {"five below", {255, 5, 0, 0}, {1, 0, 0, 0}, -2, 3},
    {"as dark", {255, 0, 0, 0}, {1, 0, 0, 0}, 0, 0},
    {"one above", {254, 0, 0, 0}, {1, 0, 0, 0}, 0, 1},
    {"four above", {251, 0, 0, 0}, {1, 0, 0, 0}, 1, 0},
    {"darkest", {0, 0, 0, 0}, {1, 1, 1, 1}, 255, 0},
    {"lightest", {255, 255, 255, 255}, {0, 0, 0, 0}, -255, 0},
};

static void check_balances(void) {
    for (size_t i = 0; i < sizeof balances / sizeof balances[0]; i++) {
        struct results r = untouched;
        const uint8_t *gray = balances[i].gray, *dots = balances[i].dots;
        uint32_t status = pm_tone_balance(2, 2, gray, 4, dots, 4, &r.quotient, &r.remainder);
        check(status == 0 && r.quotient == balances[i].quotient && r.remainder == balances[i].remainder,
              "the tone balance, %s", balances[i].what);
    }
}

/* PFM files, in both byte orders. */

/* a sample by its bits, and its gray; NO_SHADE where it is refused */
enum { NO_SHADE = 256 };

static const struct {
    const char *what;
    uint32_t bits;
    int gray;
} samples[] = {
    {"0", 0x00000000, 255},
    {"minus zero", 0x80000000, 255},
    {"the float above 0", 0x00000001, 255},
    {"the last that is nearest to black", 0x3B008080, 255},
    {"the first that is not", 0x3B008081, 254},
    {"the float below 0.5", 0x3EFFFFFF, 128},
    {"0.5, the tie", 0x3F000000, 127},
    {"the float above 0.5", 0x3F000001, 127},
    {"the float below 257 / 510", 0x3F010101, 127},
    {"the float above 257 / 510", 0x3F010102, 126},
    {"the last that is not nearest to white", 0x3F7F7F7F, 1},
    {"the first that is", 0x3F7F7F80, 0},
    {"the float below 1", 0x3F7FFFFF, 0},
    {"1", 0x3F800000, 0},
    {"the float above 1", 0x3F800001, NO_SHADE},
    {"2", 0x40000000, NO_SHADE},
    {"the largest float", 0x7F7FFFFF, NO_SHADE},
    {"infinity", 0x7F800000, NO_SHADE},
    {"a NaN that signals", 0x7F800001, NO_SHADE},
    {"a NaN that is quiet", 0x7FC00000, NO_SHADE},
    {"the last NaN", 0x7FFFFFFF, NO_SHADE},
    {"the float below 0", 0x80000001, NO_SHADE},
    {"minus 1", 0xBF800000, NO_SHADE},
    {"minus infinity", 0xFF800000, NO_SHADE},
    {"a NaN with a sign", 0xFFC00000, NO_SHADE},
};

/* lends gray of so many bytes, all BEFORE */
static void lend_gray(size_t length) {
    lend(GRAY, length);
    memset(lent[GRAY].at, BEFORE, length);
}

/* a file of one sample, with more room for gray than it needs */
static void check_sample(size_t i, int little) {
    const uint8_t wanted[] = {(uint8_t)samples[i].gray, BEFORE, BEFORE};
    uint8_t file[16];
    size_t at = write_lines(file, 1, 1, little);
    write_sample(file + at, samples[i].bits, little);
    lend_input(file, at + 4);
    lend_gray(sizeof wanted);
    int good = samples[i].gray == NO_SHADE ? refuses_pfm(PM_REFUSED_SAMPLE, at)
                                           : reads_pfm(1, 1, little) && memcmp(lent[GRAY].at, wanted, 3) == 0;
    check(good, "a sample with scale %s, %s", scales[little], samples[i].what);
}

/* the PFM of a plate gives its gray back, and what lies past it stays; the offset is written with 18 only */
static void check_pfm(int little) {
    enum { CELLS = 20 };
    uint8_t file[128] = {0}, wanted[CELLS + 2];
    const char *scale = scales[little];
    prepare(READ_PFM, 5, 4);
    memset(wanted, BEFORE, sizeof wanted);
    memcpy(wanted, lent[GRAY].at, CELLS);
    size_t length = write_pfm(file, little), raster = length - 4 * CELLS;
    lend_input(file, length);
    lend_gray(sizeof wanted);
    check(reads_pfm(5, 4, little) && memcmp(lent[GRAY].at, wanted, sizeof wanted) == 0, "a PFM, scale %s", scale);
    lend_gray(sizeof wanted);
    for (size_t first = CELLS; first-- > 0;) { /* no shade from this sample on */
        write_sample(file + raster + 4 * first, 0x7FC00000, little);
        lend_input(file, length);
        check(refuses_pfm(PM_REFUSED_SAMPLE, raster + 4 * first), "sample %zu no shade, scale %s", first, scale);
    }
    lend_gray(CELLS - 1);
    check(refuses_pfm(PM_REFUSED_ROOM, BEFORE), "12 before 18, scale %s", scale);
    lend_input(file, length - 1);
    check(refuses_pfm(PM_REFUSED_PFM, BEFORE), "17 before 12, a byte less, scale %s", scale);
    lend_input(file, length + 1);
    check(refuses_pfm(PM_REFUSED_PFM, BEFORE), "17 before 12, a byte more, scale %s", scale);
}

static void check_pfms(void) {
    for (int little = 0; little <= 1; little++) {
        for (size_t i = 0; i < sizeof samples / sizeof samples[0]; i++) check_sample(i, little);
        check_pfm(little);
    }
}

/* The stack: every call on the largest plate, in a thread with 1 MiB above a page that cannot be touched. */

static void *run(void *which) {
    static uint32_t status;
    status = call(*(int *)which);
    return &status;
}

/* the bytes of its stack that a thread overwrites which makes this call, or with CALLS none */
static size_t run_in_thread(int which, uint8_t *stack, uint32_t *status) {
    pthread_attr_t attributes;
    pthread_t thread;
    void *answer = NULL;
    size_t untouched_bytes = 0;
    memset(stack, 165, STACK);
    int made = pthread_attr_init(&attributes) == 0 && pthread_attr_setstack(&attributes, stack, STACK) == 0 &&
               pthread_create(&thread, &attributes, run, &which) == 0 && pthread_join(thread, &answer) == 0;
    check(made, "a thread with 1 MiB");
    if (made) *status = *(uint32_t *)answer;
    while (untouched_bytes < STACK && stack[untouched_bytes] == 165) untouched_bytes++;
    return STACK - untouched_bytes;
}

static void check_stack(int print) {
    enum { GUARD = 1 << 16 };
    uint8_t *memory = mmap(NULL, GUARD + STACK, PROT_READ | PROT_WRITE, MAP_PRIVATE | MAP_ANONYMOUS, -1, 0);
    int guarded = memory != MAP_FAILED && mprotect(memory, GUARD, PROT_NONE) == 0;
    check(guarded, "memory for a stack");
    if (!guarded) return;
    uint32_t status = 0;
    size_t idle = run_in_thread(CALLS, memory + GUARD, &status); /* a thread that makes no call */
    for (int which = 0; which < CALLS; which++) {
        status = UINT32_MAX;
        prepare(which, PM_MAX_SIDE, PM_MAX_SIDE);
        size_t bytes = run_in_thread(which, memory + GUARD, &status);
        check(status == 0, "%s with 1 MiB of stack", calls[which].name);
        if (print) printf("%s %zu\n", calls[which].name, bytes - idle);
    }
    munmap(memory, GUARD + STACK);
}

int main(int count, char **words) {
    int small = count > 1 && strcmp(words[1], "--small") == 0, stack = count > 1 && strcmp(words[1], "--stack") == 0;
    check_version();
    check_texts();
    check_buffers();
    check_stats();
    check_locks();
    check_plates();
    check_trials();
    check_balances();
    check_pfms();
    if (!small) {
        check_sizes();
        check_stack(stack);
    }
    for (int i = 0; i < BUFFERS; i++) {
        free(lent[i].held);
        free(lent[i].copy);
    }
    printf("%d passed, %d failed\n", passed, failed);
    return failed == 0 ? 0 : 1;
}
