/* Linked into plate by tests/command with --wrap=clock_gettime: a clock that goes on by 40 ms with each look at it. */
#define _POSIX_C_SOURCE 200809L

#include <time.h>

int __wrap_clock_gettime(clockid_t clock, struct timespec *now);

int __wrap_clock_gettime(clockid_t clock, struct timespec *now) {
    static long long looks;
    (void)clock;
    looks++;
    now->tv_sec = looks / 25;
    now->tv_nsec = looks % 25 * 40000000;
    return 0;
}
