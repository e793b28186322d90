/*
 * The proved selector as the rest of the program sees it: a card, or a station clock unit of two
 * cards, with the senders of the sixteen ports beside it. Only selector.c looks into the library's
 * structs; every other file asks here.
 */
#ifndef LIVECARD_SELECTOR_H
#define LIVECARD_SELECTOR_H

#include <stdbool.h>
#include <stddef.h>
#include <stdint.h>

#include "nurrispane.h"

#define PORTS NURRISPANE_INPUTS
/* The longest frame that a line of an event log can hold, which is the longest that is accepted. */
#define LONGEST_FRAME 1514
/* The most octets of a state that is kept: a unit's. */
#define STATE_ROOM sizeof(struct nurrispane_unit)
/* A line of answers, with its LF and a NUL. */
#define ANSWER_ROOM 80

/* With what a selector starts. A minimum makes it a station clock unit; 0 is a card alone. */
struct profile {
    uint8_t option;
    uint8_t place;
    uint16_t marks;
    uint8_t minimum;
};

/* One event for the library. `half` is looked at by a unit alone. */
struct event {
    uint8_t half; /* NURRISPANE_EQUIPMENT or NURRISPANE_STATION */
    uint8_t kind;
    uint8_t input;
    uint16_t argument;
    uint64_t time; /* ms */
    const uint8_t *frame;
    size_t length;
};

/* What a selector says. */
struct answer {
    uint8_t number;
    uint8_t selected;
    uint8_t clock_state;
    uint8_t clock_quality;
    uint8_t switch_kind;
    uint8_t switch_input;
};

struct selector {
    struct profile profile;
    union {
        struct nurrispane_card card;
        struct nurrispane_unit unit;
    } state;
    struct nurrispane_senders senders;
};

/* Whether the libraries that were linked are those of the header, and pass the test at power-on. */
bool selector_belongs(void);

/* Starts a selector and its senders; false where the library refuses the profile. */
bool selector_fresh(struct selector *selector, const struct profile *profile);

/* Whether a profile has two selectors, of which the second is the station output's. */
bool profile_is_unit(const struct profile *profile);

/* One event. */
void selector_step(struct selector *selector, const struct event *event);

/* What one of the selectors answered to the last event; a card has the equipment's alone. */
struct answer selector_answer(const struct selector *selector, uint8_t half);

/* The source of a unit's station output: an input, or NURRISPANE_NO_INPUT where it squelches. */
uint8_t selector_station_source(const struct selector *selector);

/* The answers to the last event as a line of text, as the proved program prints it. */
void selector_answer_line(const struct selector *selector, char line[ANSWER_ROOM]);

/* The time of the state, and when something is next due: ms. */
uint64_t selector_time(const struct selector *selector);
uint64_t selector_next_due(const struct selector *selector);

/* The codes that go out of the sixteen ports. */
void selector_codes(const struct selector *selector, uint8_t half, uint8_t codes[PORTS]);

/* What is known of an input. */
struct nurrispane_status selector_status(const struct selector *selector, uint8_t half,
                                         uint8_t input);

/* Begins the senders anew: the first question to each port is answered with a frame. */
void selector_fresh_senders(struct selector *selector);

/* Whether `port` has to send at a time; the frame is then in `frame`. Ports tell the equipment's codes. */
bool selector_ask(struct selector *selector, uint8_t port, uint64_t ms,
                  const uint8_t source[NURRISPANE_SOURCE_OCTETS],
                  uint8_t frame[NURRISPANE_FRAME_OCTETS]);

/* When a port's sender has next to be asked if nothing changes: ms. */
uint64_t selector_next_ask(const struct selector *selector, uint8_t port);

/* The state as octets, for keeping: how many there are, and a copy of them. */
size_t selector_state_octets(const struct profile *profile);
void selector_state(const struct selector *selector, uint8_t octets[STATE_ROOM]);

/* Takes up a state that was kept, with new senders; false where it is not sound, and nothing changes. */
bool selector_take_up(struct selector *selector, const struct profile *profile,
                      const uint8_t octets[STATE_ROOM]);

#endif
