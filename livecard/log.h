/*
 * The event log: every event that was given to the library, in order, as a line, and the answers
 * beside it. docs/LIVECARD.md says how the files are named and replayed.
 */
#ifndef LIVECARD_LOG_H
#define LIVECARD_LOG_H

#include "clock.h"
#include "disk.h"
#include "tell.h"

/* A line of the log with its LF: `e ` or `s ` of a unit, 22 digits and a frame's. */
#define LINE_ROOM (2 + 22 + 2 * LONGEST_FRAME + 2)

struct log {
    const char *directory; /* NULL: no log */
    const char *keep;      /* NULL: no kept state */
    uint64_t limit;        /* octets of a file, after which the next begins */
    uint64_t setup_lines;  /* with which every sequence begins */
    bool on;
    bool continued;  /* the present file was there before the program started */
    uint64_t octets; /* of the present file */
    struct kept at;  /* where the log stands, and the state there */
    char boot[BOOT_ROOM];
};

/* An event as a line, with LF and NUL; its length. */
size_t log_line(const struct profile *profile, const struct event *event, char line[LINE_ROOM]);

/* A line, without its LF, as an event; false where it is none. The frame's octets are put into `octets`. */
bool log_read_line(const struct profile *profile, const char *line, size_t length,
                   struct event *event, uint8_t octets[LONGEST_FRAME]);

/*
 * Takes up what was kept, and what the log has after it, into a selector; false where there is nothing
 * to take up, and the selector is as it was. Says on standard error what was found. Before the disk's
 * thread begins.
 */
bool log_take_up(struct log *log, struct selector *selector, const struct profile *profile,
                 struct card_clock *clock);

/* Begins a new sequence with a fresh selector, or goes on with the one taken up: the first lines come. */
bool log_begin_sequence(struct log *log, const struct selector *selector,
                        const struct card_clock *clock);
void log_go_on(struct log *log, const struct selector *selector, const struct card_clock *clock);

/* An event that was given, the selector after it. */
void log_event(struct log *log, const struct event *event, const struct selector *selector);

/* Where the log stands, in words. */
int log_status(const struct log *log, char *text, size_t room);

#endif
