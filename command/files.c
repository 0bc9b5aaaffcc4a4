/* Messages, files that are read and written whole, with every call checked up to the close, and sheets with dots. */
#include "plate.h"

#include <errno.h>
#include <stdarg.h>
#include <sys/stat.h>

enum { BYTES = 1 << 20 };

/* one byte more than is taken, so that a longer file shows */
static uint8_t bytes[BYTES + 1];

enum status tell(enum status status, const char *format, ...) {
    va_list arguments;
    va_start(arguments, format);
    vfprintf(stderr, format, arguments);
    va_end(arguments);
    fputc('\n', stderr);
    return status;
}

/* lines and columns are counted from 1 */
enum status tell_at(enum status status, const struct input *input, size_t offset, const char *words) {
    size_t line = 1, column = 1;
    for (size_t i = 0; i < offset; i++) {
        column = input->bytes[i] == '\n' ? 1 : column + 1;
        line += input->bytes[i] == '\n';
    }
    return tell(status, "%s:%zu:%zu: %s", input->name, line, column, words);
}

enum status trouble(const char *name) {
    return tell(TROUBLE, "plate: %s: %s", name, strerror(errno));
}

/* only the refusals of a sheet's bytes have a place */
enum status refused(const struct input *input, uint32_t number, size_t offset) {
    char words[100];
    snprintf(words, sizeof words, "refused %" PRIu32 ": %s", number, pm_refusal_text(number));
    if (number >= PM_REFUSED_BYTE && number <= PM_REFUSED_ROOM) return tell_at(DIFFERS, input, offset, words);
    return tell(DIFFERS, "%s: %s", input->name, words);
}

/* the bytes stay until the next file is read */
enum status read_file(const char *name, struct input *input) {
    int stream = strcmp(name, "-") == 0;
    FILE *file = stream ? stdin : fopen(name, "rb");
    *input = (struct input){.name = stream ? "standard input" : name, .bytes = bytes};
    if (file == NULL) return trouble(input->name);
    input->length = fread(bytes, 1, sizeof bytes, file);
    enum status status = ferror(file) ? trouble(input->name) : GOOD;
    if (!stream) fclose(file);
    if (status == GOOD && input->length > BYTES) return refused(input, PM_REFUSED_INPUT, 0);
    bytes[input->length % sizeof bytes] = 0;
    return status;
}

/* whether this text stands there */
int begins(const struct input *input, size_t offset, const char *text) {
    return strncmp((const char *)input->bytes + offset, text, strlen(text)) == 0;
}

/* the figures after a filed sheet are passed over */
enum status read_sheet(const struct input *input) {
    size_t offset = 0;
    uint32_t number = pm_plate_read(&plate, input->bytes, input->length, &offset);
    if (number == PM_REFUSED_BYTE && begins(input, offset, FIGURE_NAMES)) {
        number = pm_plate_read(&plate, input->bytes, offset, &offset);
    }
    if (number != 0) return refused(input, number, offset);
    if (plate.measures[PM_MEASURE_START] == 2) return GOOD;
    return tell(DIFFERS, "%s: a sheet without dots: settle it first", input->name);
}

static enum status put(FILE *file, const char *name, const void *from, size_t length) {
    return fwrite(from, 1, length, file) == length && fflush(file) == 0 ? GOOD : trouble(name);
}

/* removes the file itself, should its name be a link */
static void remove_file(const char *name) {
    char *path = realpath(name, NULL);
    if (path != NULL) remove(path);
    free(path);
}

/* a regular file that was begun and cannot be written whole is removed */
enum status write_file(const char *name, const void *from, size_t length) {
    if (name == NULL) return put(stderr, "standard error", from, length);
    if (strcmp(name, "-") == 0) return put(stdout, "standard output", from, length);
    FILE *file = fopen(name, "wb");
    if (file == NULL) return trouble(name);
    struct stat facts;
    int regular = fstat(fileno(file), &facts) == 0 && S_ISREG(facts.st_mode);
    enum status status = put(file, name, from, length);
    if (fclose(file) != 0 && status == GOOD) status = trouble(name);
    if (status != GOOD && regular) remove_file(name);
    return status;
}
