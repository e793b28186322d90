/* What the program tells its operator: lines on standard error, which never wait for a reader. */
#ifndef LIVECARD_TELL_H
#define LIVECARD_TELL_H

#include <stdint.h>

/* A thing that may happen often, and is told once a second at most. */
struct telling {
    uint64_t next; /* ns of CLOCK_MONOTONIC */
    unsigned long held;
};

/* A line; where nobody reads, it is lost and counted, and the next line says so. */
__attribute__((format(printf, 1, 2))) void tell(const char *format, ...);

/* The same of what may happen often: with how many times it was not told since. */
__attribute__((format(printf, 2, 3))) void tell_seldom(struct telling *telling, const char *format,
                                                       ...);

/* Tells why the program cannot start, and ends it with status 2. */
__attribute__((format(printf, 1, 2), noreturn)) void fail(const char *format, ...);

#endif
