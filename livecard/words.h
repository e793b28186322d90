/* An event in words without a time, as docs/LABORATORY.md has them; and answers in the same words. */
#ifndef LIVECARD_WORDS_H
#define LIVECARD_WORDS_H

#include "selector.h"

#define WRONG_ROOM 160

/* What a line holds; the frame's octets are in `octets`. */
struct spoken {
    struct event event; /* its time is 0, its frame points to `octets` */
    bool half_said;     /* a unit's `e` or `s` stood first */
    uint8_t octets[LONGEST_FRAME];
};

/* Reads a line; false where it is no event, and `wrong` then says the column and why. */
bool words_read(const char *line, const struct profile *profile, struct spoken *spoken,
                char wrong[WRONG_ROOM]);

/* Whether an event goes to both selectors of a unit, so that none of them has to be named. */
bool words_go_to_both(uint8_t kind);

/* An answer in words: [!NUMBER] SELECTED STATE QUALITY [forced INPUT] [manual INPUT]. */
int words_answer(const struct answer *answer, char *text, size_t room);

/* What a number of refusal says. */
const char *words_refusal(uint8_t number);

/* The name of a quality by its number on paper. */
const char *words_quality(uint8_t option, uint8_t quality);

/* The name of a clock state. */
const char *words_state(uint8_t clock_state);

#endif
