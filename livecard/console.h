/*
 * The console: a line in, a line out, from a Unix socket and from standard input at a terminal. A client
 * that stalls is read no further, one that floods gets some lines a round, and one that goes away is gone.
 */
#ifndef LIVECARD_CONSOLE_H
#define LIVECARD_CONSOLE_H

#include <stdbool.h>
#include <stddef.h>
#include <stdint.h>

#define CLIENTS 8
/* A line can hold a frame's digits. */
#define SAID_ROOM 4096
#define REPLY_ROOM 4096

struct client {
    int in, out; /* -1: none */
    char said[SAID_ROOM];
    size_t said_length;
    bool too_long; /* the rest of a line that is too long is skipped */
    bool ended;    /* says no more */
    char replies[2 * REPLY_ROOM];
    size_t replies_length;
    uint64_t heard; /* when it last said something, ns */
    bool is_watched;  /* by epoll, for `watched` */
    uint32_t watched;
};

struct console {
    int listening; /* -1: none */
    const char *path;
    int epoll;
    uint32_t first_id; /* of the clients, in epoll's events */
    struct client clients[CLIENTS];
};

/* Answers a line: puts the reply, with no LF, into `reply`. */
typedef void console_answers(void *whom, char *line, char reply[REPLY_ROOM]);

/* Opens the console; `path` may be NULL. Clients are `first_id` and on in the events of `epoll`. */
void console_open(struct console *console, const char *path, int epoll, uint32_t first_id);

/* Takes a new client. */
void console_accept(struct console *console);

/* Reads what a client says and takes its replies to it; `id` from 0. */
void console_client(struct console *console, uint32_t id);

/* Answers some of the lines that have come. Whether more are waiting. */
bool console_answer(struct console *console, console_answers *answers, void *whom);

/* Takes away the socket's name. */
void console_close(struct console *console);

#endif
