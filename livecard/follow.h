/*
 * The follower: a program of the user's that is told, a line a change on its standard input, which input
 * the clock is to follow, or holdover, or free run. It is never waited for: one that is slow gets the last
 * word when it reads again, and one that ends is started again.
 */
#ifndef LIVECARD_FOLLOW_H
#define LIVECARD_FOLLOW_H

#include <sys/types.h>

#include "selector.h"

#define WORD_ROOM 64

struct follow {
    const char *command; /* NULL: none */
    pid_t process;       /* 0: not running */
    int pipe;            /* -1: none */
    uint64_t again;      /* when it is started again, ns; UINT64_MAX where it runs */
    char word[WORD_ROOM]; /* the last word, with LF */
    bool told;            /* it was taken */
    bool is_slow;         /* it was told so */
};

void follow_open(struct follow *follow, const char *command);

/* Starts the program where it is due; tells it anew what the last word is. */
void follow_start(struct follow *follow);

/* What the selector says now: a line where it says something else than before. */
void follow_selector(struct follow *follow, const struct selector *selector);

/* Takes the word to the program, as far as it takes it. */
void follow_write(struct follow *follow);

/* A child has ended: whether it was this one is asked. */
void follow_reap(struct follow *follow);

/* Whether a word waits for the program to read. */
bool follow_waits(const struct follow *follow);

/* In words: "follow none", "follow runs", "follow slow", "follow dead". */
const char *follow_status(const struct follow *follow);

#endif
