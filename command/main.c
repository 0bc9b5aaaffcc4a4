/* The command `plate`: hands its words on to settle, check, balance or show. */
#include "plate.h"

#include <fcntl.h>

static const char help[] =
    "plate settle [-p PSF] [-q REACH] [-s START] [-o OUT] [--sheet] [--figures FILE] [IN]\n"
    "    makes a plate of dots from a PGM or a sheet. What is not said is as the sheet has it, or the default.\n"
    "    Gray 0 (white) stays bare and gray 255 (black) stays solid, as paper and lettering.\n"
    "    -p PSF          the spread: a ready one (below), or a file of 1, 9, 25 or 49 numbers\n"
    "    -q REACH        how far a dot may be swapped, 0 to 6\n"
    "    -s START        0 or blank, 1 or ordered, 2 or given (the dots of the sheet)\n"
    "    -o OUT          where the plate goes: a PBM, or a filed sheet where OUT ends in .sheet\n"
    "    --sheet         a filed sheet, whatever OUT is\n"
    "    --figures FILE  where the figures go, instead of standard error\n"
    "plate check [FILED...]\n"
    "    says of filed sheets whether their figures belong to their dots, and whether these are at rest\n"
    "plate balance [SHEET...]\n"
    "    says of sheets with dots, filed or not, whether the plate is darker than its ground\n"
    "plate show [FILE]\n"
    "    draws the dots of a PBM, a sheet or a filed sheet\n"
    "plate --help, plate COMMAND --help, plate --version\n"
    "A file of the name -, or none, is a standard stream. The exit status is 0; 1 where something is refused or\n"
    "does not agree; 2 where the usage is wrong, or a file cannot be read or written.\n";

static uint8_t gray[PM_MAX_CELLS], dots[PM_MAX_CELLS];
static int32_t table[PM_MAX_CELLS];
struct pm_plate plate = {.gray = gray, .dots = dots, .table = table, .room = PM_MAX_CELLS};

static enum status print_help(void) {
    printf("%sFor a PGM, -q %d and -s %d are the defaults. The ready psfs are, the default first:", help, DEFAULT_REACH,
           DEFAULT_START);
    for (const struct psf *psf = ready_psfs; psf->name != NULL; psf++) printf(" %s", psf->name);
    return write_file("-", "\n", 1);
}

static enum status print_version(void) {
    uint32_t number = pm_version();
    printf("plate " PM_VERSION_TEXT);
    if (number != PM_VERSION) {
        printf(" with the library %" PRIu32 ".%" PRIu32 ".%" PRIu32, number / 1000000, number / 1000 % 1000,
               number % 1000);
    }
    return write_file("-", "\n", 1);
}

enum status only_operand(int count, char **words, const char **name) {
    if (count - optind > 1) return tell(TROUBLE, USAGE("one file at a time: '%s' is too many"), words[optind + 1]);
    *name = optind < count ? words[optind] : "-";
    return GOOD;
}

enum status each_file(int count, char **words, enum status (*work)(const char *name)) {
    enum status worst = optind < count ? GOOD : work("-");
    for (int i = optind; i < count; i++) {
        enum status status = work(words[i]);
        if (status > worst) worst = status;
    }
    return worst;
}

/* whether --help stands among the options */
static int asks_help(int count, char **words) {
    for (int i = 1; i < count && strcmp(words[i], "--") != 0; i++) {
        if (strcmp(words[i], "--help") == 0) return 1;
    }
    return 0;
}

/* the command of this name that takes files and no options, NULL where there is none */
static enum status (*without_options(const char *name))(int count, char **words) {
    if (strcmp(name, "check") == 0) return check;
    if (strcmp(name, "balance") == 0) return balance;
    return strcmp(name, "show") == 0 ? show : NULL;
}

static enum status run(int count, char **words) {
    static const struct option none[] = {{NULL, 0, NULL, 0}};
    static char name[] = "plate";
    if (count < 2) return tell(TROUBLE, USAGE("a command is missing"));
    const char *command = words[1];
    if (asks_help(count, words)) return print_help();
    if (strcmp(command, "--version") == 0) return print_version();
    words[1] = name; /* which getopt_long puts before its messages */
    if (strcmp(command, "settle") == 0) return settle(count - 1, words + 1);
    enum status (*named)(int count, char **words) = without_options(command);
    if (named == NULL) return tell(TROUBLE, USAGE("there is no command '%s'"), command);
    if (getopt_long(count - 1, words + 1, "", none, NULL) != -1) return tell(TROUBLE, TRY_HELP);
    return named(count - 1, words + 1);
}

/* a closed standard stream is held by /dev/null, opened so that to read or write it fails as it should */
static void hold_streams(void) {
    for (int stream = 0; stream <= 2; stream++) {
        if (fcntl(stream, F_GETFD) != -1) continue;
        if (open("/dev/null", stream == 0 ? O_WRONLY : O_RDONLY) != stream) exit(TROUBLE);
    }
}

/* some file systems tell of a failed write only at the close */
int main(int count, char **words) {
    hold_streams();
    enum status status = run(count, words);
    return fclose(stdout) == 0 || status == TROUBLE ? status : trouble("standard output");
}
