/* Standard error, written only when it takes a line at once: a log daemon that stalls stops no heartbeat. */
#include "tell.h"

#include <poll.h>
#include <stdarg.h>
#include <stdatomic.h>
#include <stdio.h>
#include <stdlib.h>
#include <unistd.h>

#include "clock.h"

#define LINE_ROOM 512
#define SECOND 1000000000u

static atomic_ulong lost;

/* Puts out a line that ends with LF: 0 where nobody takes it now. */
static int put(const char *text, size_t length)
{
    struct pollfd ready = {.fd = STDERR_FILENO, .events = POLLOUT};

    return poll(&ready, 1, 0) == 1 && (ready.revents & POLLOUT) != 0 &&
           write(STDERR_FILENO, text, length) == (ssize_t)length;
}

static void say(const char *format, va_list values, unsigned long held)
{
    char line[LINE_ROOM];
    size_t room = sizeof line - 1, at;
    unsigned long missed = atomic_exchange(&lost, 0);

    at = (size_t)snprintf(line, room, "livecard: ");
    if (missed)
        at += (size_t)snprintf(line + at, room - at, "(%lu lines lost here) ", missed);
    int said = vsnprintf(line + at, room - at, format, values);
    if (said > 0)
        at += (size_t)said < room - at ? (size_t)said : room - at - 1;
    if (held) {
        said = snprintf(line + at, room - at, " (and %lu times before)", held);
        at += (size_t)said < room - at ? (size_t)said : room - at - 1;
    }
    line[at++] = '\n';
    if (!put(line, at))
        atomic_fetch_add(&lost, missed + 1);
}

void tell(const char *format, ...)
{
    va_list values;

    va_start(values, format);
    say(format, values, 0);
    va_end(values);
}

void tell_seldom(struct telling *telling, const char *format, ...)
{
    uint64_t now = monotonic_ns();
    va_list values;

    if (now < telling->next) {
        telling->held++;
        return;
    }
    va_start(values, format);
    say(format, values, telling->held);
    va_end(values);
    telling->held = 0;
    telling->next = now + SECOND;
}

void fail(const char *format, ...)
{
    va_list values;

    va_start(values, format);
    say(format, values, 0);
    va_end(values);
    exit(2);
}
