/* The setup: words without a time, which a fresh card is given first. */
#ifndef LIVECARD_SETUP_H
#define LIVECARD_SETUP_H

#include "words.h"

#define SETUP_LINES 1024

struct setup {
    const char *path;
    size_t count;
    struct event events[SETUP_LINES]; /* without frames */
    unsigned lines[SETUP_LINES];      /* where each stands */
};

/* Reads a file; ends the program where a word is wrong. A path of NULL is no setup. */
void setup_read(struct setup *setup, const char *path, const struct profile *profile);

/* Ends the program where a fresh selector refuses one of the events. */
void setup_try(const struct setup *setup, const struct profile *profile);

#endif
