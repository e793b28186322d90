/* The card's time: ms of CLOCK_MONOTONIC since a zero; and the one timer that wakes the program. */
#ifndef LIVECARD_CLOCK_H
#define LIVECARD_CLOCK_H

#include <stdint.h>

#define NS_A_MS 1000000
/* The last time that the clock can tell, in 146 years; what is due later is never due. */
#define LAST_MS (UINT64_MAX / 4 / NS_A_MS)

/* Where the card's time 0 lies on CLOCK_MONOTONIC, in ns; below 0 for a card older than the machine's start. */
struct card_clock {
    int64_t zero;
};

/* CLOCK_MONOTONIC in ns, and what CLOCK_REALTIME is ahead of it. */
uint64_t monotonic_ns(void);
int64_t real_less_monotonic(void);

/* The card's time at a moment of CLOCK_MONOTONIC: ms, 0 for one before its zero. */
uint64_t clock_ms(const struct card_clock *clock, uint64_t ns);

/* The clock of a card whose time is `ms` now. */
struct card_clock clock_from(uint64_t ms);

/* A timer, and the moment of the card's time at which it next rings; UINT64_MAX is never. */
int timer_open(void);
void timer_set(int timer, const struct card_clock *clock, uint64_t ms);
void timer_heard(int timer);

#endif
