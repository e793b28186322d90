/* CLOCK_MONOTONIC alone counts the card's time; CLOCK_REALTIME is asked for what the kernel stamps with it. */
#include "clock.h"

#include <errno.h>
#include <string.h>
#include <sys/timerfd.h>
#include <time.h>
#include <unistd.h>

#include "tell.h"

#define SECOND 1000000000

static int64_t read_clock(clockid_t clock)
{
    struct timespec now;

    if (clock_gettime(clock, &now) < 0)
        fail("the clock cannot be read: %s", strerror(errno));
    return (int64_t)now.tv_sec * SECOND + now.tv_nsec;
}

uint64_t monotonic_ns(void)
{
    return (uint64_t)read_clock(CLOCK_MONOTONIC);
}

int64_t real_less_monotonic(void)
{
    int64_t before = read_clock(CLOCK_MONOTONIC), real = read_clock(CLOCK_REALTIME);

    /* the middle of two readings around it */
    return real - before - (read_clock(CLOCK_MONOTONIC) - before) / 2;
}

uint64_t clock_ms(const struct card_clock *clock, uint64_t ns)
{
    int64_t since = (int64_t)ns - clock->zero;

    return since < 0 ? 0 : (uint64_t)since / NS_A_MS;
}

struct card_clock clock_from(uint64_t ms)
{
    return (struct card_clock){(int64_t)monotonic_ns() - (int64_t)(ms * NS_A_MS)};
}

int timer_open(void)
{
    int timer = timerfd_create(CLOCK_MONOTONIC, TFD_NONBLOCK | TFD_CLOEXEC);

    if (timer < 0)
        fail("no timer: %s", strerror(errno));
    return timer;
}

void timer_set(int timer, const struct card_clock *clock, uint64_t ms)
{
    static struct telling failed;
    struct itimerspec at = {.it_value = {0, 0}};

    if (ms <= LAST_MS) {
        int64_t ns = clock->zero + (int64_t)ms * NS_A_MS;

        /* all 0 would stop the timer: a moment that is past rings at once */
        at.it_value.tv_sec = (time_t)(ns < SECOND ? 0 : ns / SECOND);
        at.it_value.tv_nsec = (long)(ns < 1 ? 1 : ns % SECOND);
    }
    if (timerfd_settime(timer, TFD_TIMER_ABSTIME, &at, NULL) < 0)
        tell_seldom(&failed, "the timer cannot be set: %s", strerror(errno));
}

void timer_heard(int timer)
{
    static struct telling failed;
    uint64_t rings;

    if (read(timer, &rings, sizeof rings) < 0 && errno != EAGAIN && errno != EINTR)
        tell_seldom(&failed, "the timer cannot be read: %s", strerror(errno));
}
