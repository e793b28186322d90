/* The card: the selector with its clock, ports, log and follower around it. Every event goes through card_give(). */
#ifndef LIVECARD_CARD_H
#define LIVECARD_CARD_H

#include "clock.h"
#include "console.h"
#include "follow.h"
#include "log.h"
#include "options.h"
#include "ports.h"
#include "setup.h"

struct card {
    const struct options *options;
    struct selector selector;
    struct card_clock clock;
    struct ports ports;
    struct setup setup;
    struct log log;
    struct follow follow;
    struct console console;
    uint8_t codes[PORTS]; /* as the senders were last asked with */
    uint64_t round;       /* the time of commands, links and ticks in this round, ms */
    bool begun; /* till then links are only noted */
    bool quits;
};

/* Gives an event to the library, and to the log; what follows from it is told at once. */
void card_give(struct card *card, struct event *event);

/* Begins fresh: time 0, the setup, the links' signals. False where the log takes no new sequence now. */
bool card_begin(struct card *card);

/* Goes on with a state that was taken up: the present time, then the links' signals. */
void card_go_on(struct card *card);

/* A link's state: the signal of the port's input. */
void card_link(void *card, const char *name, int index, bool up);

/* Asks the senders of the mapped ports at a time of the card's clock. */
void card_ask_senders(struct card *card, uint64_t ms);

/* When the card has next to do something by itself, ms. */
uint64_t card_next(const struct card *card);

#endif
