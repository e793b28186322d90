/* The program's words: what it is started with. */
#ifndef LIVECARD_OPTIONS_H
#define LIVECARD_OPTIONS_H

#include "selector.h"

enum task { TASK_RUN, TASK_WORDS, TASK_REPLAY };

struct options {
    enum task task;
    struct profile profile;
    const char *interface[PORTS]; /* NULL: not mapped */
    const char *setup, *console, *log, *keep, *follow, *user, *start;
    uint64_t log_limit; /* octets of a file of the log */
    bool real_time, every_frame;
    bool console_signals; /* the console says the inputs' signals, not the links */
};

/* Reads the words; ends the program where one is wrong, or where help was asked for. */
void options_read(int count, char **words, struct options *options);

#endif
