/* plate show: the dots of a plate, drawn in characters. */
#include "plate.h"

#include <langinfo.h>
#include <locale.h>
#include <sys/ioctl.h>

/* enough for a half block, 3 bytes, for every two cells, or a byte for each, and the ends of lines */
static char drawn[2 * PM_MAX_CELLS];

static enum status read_dots(const struct input *input) {
    if (begins(input, 0, "P5")) return tell(DIFFERS, "%s: a PGM has gray and no dots: settle it first", input->name);
    if (!begins(input, 0, "P")) return read_sheet(input);
    uint32_t number = pm_read_pbm(input->bytes, input->length, plate.dots, plate.room,
                                  &plate.measures[PM_MEASURE_WIDTH], &plate.measures[PM_MEASURE_HEIGHT]);
    return number == 0 ? GOOD : refused(input, number, 0);
}

/* how many columns there is room for; a terminal that does not tell its width has enough */
static size_t visible(const char *name) {
    struct winsize size = {0};
    size_t width = plate.measures[PM_MEASURE_WIDTH];
    if (!isatty(STDOUT_FILENO) || ioctl(STDOUT_FILENO, TIOCGWINSZ, &size) != 0) return width;
    if (size.ws_col == 0 || size.ws_col >= width) return width;
    tell(GOOD, "%s: %zu cells wide, cut to the %u columns of the terminal", name, width, (unsigned)size.ws_col);
    return size.ws_col;
}

/* draws so many columns; a character has one row, or two where it is a half block */
static size_t draw(size_t columns, int blocks) {
    static const char *const marks[] = {" ", "\xe2\x96\x80", "\xe2\x96\x84", "\xe2\x96\x88"};
    size_t width = plate.measures[PM_MEASURE_WIDTH], height = plate.measures[PM_MEASURE_HEIGHT];
    char *end = drawn;
    for (size_t row = 0; row < height; row += blocks ? 2 : 1) {
        for (size_t col = 0; col < columns; col++) {
            int upper = plate.dots[row * width + col];
            int lower = row + 1 < height && plate.dots[(row + 1) * width + col];
            const char *mark = blocks ? marks[upper + 2 * lower] : upper ? "#" : ".";
            end = strcpy(end, mark) + strlen(mark);
        }
        *end++ = '\n';
    }
    return (size_t)(end - drawn);
}

enum status show(int count, char **words) {
    struct input input;
    const char *name = NULL;
    enum status status = only_operand(count, words, &name);
    if (status == GOOD) status = read_file(name, &input);
    if (status == GOOD) status = read_dots(&input);
    if (status != GOOD) return status;
    setlocale(LC_CTYPE, "");
    size_t length = draw(visible(input.name), strcmp(nl_langinfo(CODESET), "UTF-8") == 0);
    return write_file("-", drawn, length);
}
