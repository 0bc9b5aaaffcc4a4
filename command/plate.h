/*
 * What the files of the command `plate` share; each of them includes it before all else. A status is what the command
 * ends with; who answers another one than GOOD has told why on standard error.
 */
#ifndef PLATE_H
#define PLATE_H

#define _XOPEN_SOURCE 700 /* POSIX.1-2008, with realpath */

#include <getopt.h>
#include <inttypes.h>
#include <stdio.h>
#include <stdlib.h>
#include <string.h>
#include <unistd.h>

#include "platemaker.h"
#include "psfs.h"

/* DIFFERS is refused, or not as it is filed; TROUBLE is wrong usage, or a read or a write that failed */
enum status { GOOD, DIFFERS, TROUBLE };

/* a file that was read whole; a byte of 0 follows it */
struct input {
    const char *name;
    const uint8_t *bytes;
    size_t length;
};

/* the plate that is worked on, with room for every size */
extern struct pm_plate plate;

/* the first of the two lines of figures, which end a filed sheet; and the message of wrong usage */
#define FIGURE_NAMES "before after on off swaps scans\n"
#define TRY_HELP "Try 'plate --help'"
#define USAGE(words) "plate: " words "\n" TRY_HELP

/* files.c: a message is a line on standard error, a place a byte offset. The name - is that of a standard stream */
enum status tell(enum status status, const char *format, ...);
enum status tell_at(enum status status, const struct input *input, size_t offset, const char *words);
enum status trouble(const char *name); /* what errno says */
enum status refused(const struct input *input, uint32_t number, size_t offset);
enum status read_file(const char *name, struct input *input);
int begins(const struct input *input, size_t offset, const char *text);
enum status read_sheet(const struct input *input); /* a sheet with dots, which may be filed, into the plate */
enum status write_file(const char *name, const void *bytes, size_t length); /* NULL is standard error */

/* main.c: the name of the one file there may be after the options; or each of the files, and the worst status */
enum status only_operand(int count, char **words, const char **name);
enum status each_file(int count, char **words, enum status (*work)(const char *name));

/* psf.c: the ready psf of this name, or the numbers in the file of this name */
enum status find_psf(const char *name, const struct psf **psf);

/* progress.c: pm_plate_settle, with a line of progress where standard error is a terminal */
uint32_t settle_plate(uint64_t *scans);

/* the commands, each in the file of its name */
enum status settle(int count, char **words);
enum status check(int count, char **words);
enum status balance(int count, char **words);
enum status show(int count, char **words);

#endif
