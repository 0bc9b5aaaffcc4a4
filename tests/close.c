/* Linked into plate by tests/command with --wrap=fclose: a close that fails, as on a file system that writes late. */
#include <errno.h>
#include <stdio.h>

int __real_fclose(FILE *file);
int __wrap_fclose(FILE *file);

int __wrap_fclose(FILE *file) {
    __real_fclose(file);
    errno = EIO;
    return EOF;
}
