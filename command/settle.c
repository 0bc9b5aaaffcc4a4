/* plate settle: gray in, a settled plate out. */
#include "plate.h"

enum { UNSET = 1001, SHEET = 256, FIGURES };

/* what the words ask for; what is not set is as the sheet has it, or else the default */
struct wishes {
    const struct psf *psf;
    size_t reach, start;
    const char *in, *out, *figures;
    int sheet;
};

static uint8_t output[PM_MAX_FILED];
static char figures[PM_MAX_FILED - PM_MAX_SHEET + 1];

/* a number; 1,000 stands for all above */
static enum status read_number(const char *word, const char *wanted, size_t *value) {
    unsigned long number = strtoul(word, NULL, 10);
    *value = number < 1000 ? number : 1000;
    if (*word != '\0' && word[strspn(word, "0123456789")] == '\0') return GOOD;
    return tell(TROUBLE, USAGE("'%s' cannot stand here: give %s"), word, wanted);
}

static enum status read_start(const char *word, size_t *value) {
    static const char *const names[] = {"blank", "ordered", "given"};
    for (*value = 0; *value < 3; ++*value) {
        if (strcmp(word, names[*value]) == 0) return GOOD;
    }
    return read_number(word, "blank, ordered, given or a number", value);
}

static enum status take_option(int option, struct wishes *wishes) {
    switch (option) {
    case 'p': return find_psf(optarg, &wishes->psf);
    case 'q': return read_number(optarg, "a number", &wishes->reach);
    case 's': return read_start(optarg, &wishes->start);
    case 'o': wishes->out = optarg; return GOOD;
    case FIGURES: wishes->figures = optarg; return GOOD;
    case SHEET: wishes->sheet = 1; return GOOD;
    default: return tell(TROUBLE, TRY_HELP);
    }
}

static enum status take_words(int count, char **words, struct wishes *wishes) {
    static const struct option names[] = {{"sheet", 0, NULL, SHEET}, {"figures", 1, NULL, FIGURES}, {NULL, 0, NULL, 0}};
    for (int option; (option = getopt_long(count, words, "p:q:s:o:", names, NULL)) != -1;) {
        if (take_option(option, wishes) != GOOD) return TROUBLE;
    }
    size_t length = strlen(wishes->out);
    if (length >= 6 && strcmp(wishes->out + length - 6, ".sheet") == 0) wishes->sheet = 1;
    if (wishes->figures != NULL && strcmp(wishes->out, wishes->figures) == 0) {
        return tell(TROUBLE, USAGE("the plate and its figures cannot both go to '%s'"), wishes->out);
    }
    if (strcmp(wishes->out, "-") == 0 && !wishes->sheet && isatty(STDOUT_FILENO)) {
        return tell(TROUBLE, USAGE("a PBM is nothing for a terminal: name a file by -o, or pipe it into 'plate show'"));
    }
    return only_operand(count, words, &wishes->in);
}

static void set_psf(const struct psf *psf) {
    plate.measures[PM_MEASURE_RADIUS] = psf->radius;
    memcpy(plate.psf, psf->entries, PM_MAX_PSF);
}

/* a sheet has all that there is to set; a PGM has gray, and the rest is the default */
static enum status read_gray(const struct input *input) {
    size_t *measures = plate.measures, offset = 0;
    if (begins(input, 0, "P4")) return tell(DIFFERS, "%s: refused 14: a PBM has dots and no gray", input->name);
    measures[PM_MEASURE_REACH] = DEFAULT_REACH;
    measures[PM_MEASURE_START] = DEFAULT_START;
    set_psf(ready_psfs);
    uint32_t number = begins(input, 0, "P")
        ? pm_read_pgm(input->bytes, input->length, plate.gray, plate.room, &measures[PM_MEASURE_WIDTH],
                      &measures[PM_MEASURE_HEIGHT])
        : pm_plate_read(&plate, input->bytes, input->length, &offset);
    return number == 0 ? GOOD : refused(input, number, offset);
}

static enum status set_wishes(const struct wishes *wishes, const char *name) {
    size_t *start = &plate.measures[PM_MEASURE_START];
    if (wishes->start == 2 && *start != 2) return tell(TROUBLE, USAGE("%s has no dots to start from"), name);
    if (wishes->start != UNSET) *start = wishes->start;
    if (wishes->reach != UNSET) plate.measures[PM_MEASURE_REACH] = wishes->reach;
    if (wishes->psf != NULL) set_psf(wishes->psf);
    return GOOD;
}

/* starts and settles the plate, and lays out what is to be written; a filed sheet ends with the figures */
static uint32_t make(int sheet, size_t *length) {
    const int64_t *stats = plate.stats;
    uint64_t scans = 0;
    size_t offset = 0;
    uint32_t number = pm_plate_start(&plate);
    if (number == 0) number = settle_plate(&scans);
    int width = snprintf(figures, sizeof figures,
                         FIGURE_NAMES "%" PRId64 " %" PRId64 " %" PRId64 " %" PRId64 " %" PRId64 " %" PRIu64 "\n",
                         stats[PM_STATS_START_ERROR], stats[PM_STATS_ERROR], stats[PM_STATS_ON], stats[PM_STATS_OFF],
                         stats[PM_STATS_SWAPS], scans);
    if (number != 0) return number;
    if (!sheet) {
        return pm_write_pbm(plate.measures[PM_MEASURE_WIDTH], plate.measures[PM_MEASURE_HEIGHT], plate.dots,
                            pm_plate_cells(&plate), output, sizeof output, length);
    }
    number = pm_plate_write(&plate, output, PM_MAX_SHEET, length, &offset);
    memcpy(output + *length, figures, (size_t)width);
    *length += (size_t)width;
    return number;
}

enum status settle(int count, char **words) {
    struct wishes wishes = {.reach = UNSET, .start = UNSET, .out = "-"};
    struct input input;
    size_t length = 0;
    enum status status = take_words(count, words, &wishes);
    if (status == GOOD) status = read_file(wishes.in, &input);
    if (status == GOOD) status = read_gray(&input);
    if (status == GOOD) status = set_wishes(&wishes, input.name);
    if (status != GOOD) return status;
    uint32_t number = make(wishes.sheet, &length);
    if (number == PM_REFUSED_PSF && wishes.psf != NULL) input.name = wishes.psf->name;
    if (number != 0) return refused(&input, number, 0);
    status = write_file(wishes.out, output, length);
    return status == GOOD ? write_file(wishes.figures, figures, strlen(figures)) : status;
}
