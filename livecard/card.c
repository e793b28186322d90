/* Where an event goes: the library, then the log, the follower and the senders. */
#include "card.h"

#include <string.h>

#include "tell.h"

/* ---- senders */

void card_ask_senders(struct card *card, uint64_t ms)
{
    uint8_t frame[NURRISPANE_FRAME_OCTETS];

    selector_codes(&card->selector, NURRISPANE_EQUIPMENT, card->codes);
    for (uint8_t number = 0; number < PORTS; number++) {
        struct port *port = &card->ports.port[number];

        if (port_is_mapped(port) && selector_ask(&card->selector, number, ms, port->address, frame))
            port_send(port, frame);
    }
}

/* A changed code is told at once, not at the end of the round. */
static void tell_changes(struct card *card)
{
    uint8_t codes[PORTS];

    selector_codes(&card->selector, NURRISPANE_EQUIPMENT, codes);
    if (memcmp(codes, card->codes, sizeof codes) != 0)
        card_ask_senders(card, clock_ms(&card->clock, monotonic_ns()));
}

/* ---- events */

void card_give(struct card *card, struct event *event)
{
    uint64_t least = selector_time(&card->selector);

    /* what came before the last tick was made, and is noticed after it, has come now */
    if (event->time < least)
        event->time = least;
    selector_step(&card->selector, event);
    log_event(&card->log, event, &card->selector);
    follow_selector(&card->follow, &card->selector);
    tell_changes(card);
}

static void give_plain(struct card *card, uint8_t kind, uint8_t input, uint16_t argument)
{
    struct event event = {.kind = kind,
                          .input = input,
                          .argument = argument,
                          .time = card->round,
                          .frame = NURRISPANE_NO_FRAME};

    card_give(card, &event);
}

/* ---- links */

static void give_signal(struct card *card, uint8_t number)
{
    if (card->begun && !card->options->console_signals)
        give_plain(card, NURRISPANE_EVENT_SIGNAL, number, card->ports.port[number].up ? 0 : 1);
}

void card_link(void *whom, const char *name, int index, bool up)
{
    struct card *card = whom;

    for (uint8_t number = 0; number < PORTS; number++) {
        struct port *port = &card->ports.port[number];

        if (!port_is_mapped(port) || strcmp(port->name, name) != 0)
            continue;
        if (index == 0) {
            tell("port %u: %s is gone", number, name);
            port->index = 0;
        } else if (index != port->index) {
            port_bind_again(&card->ports, number, index);
        }
        if (up == port->up)
            continue;
        port->up = up;
        tell("port %u: link %s is %s", number, name, up ? "up" : "down");
        give_signal(card, number);
    }
}

static void give_signals(struct card *card)
{
    for (uint8_t number = 0; number < PORTS; number++)
        if (port_is_mapped(&card->ports.port[number]))
            give_signal(card, number);
}

/* ---- the start */

bool card_begin(struct card *card)
{
    struct selector fresh;
    struct card_clock clock = clock_from(0);

    if (!selector_fresh(&fresh, &card->options->profile))
        return false;
    if (!log_begin_sequence(&card->log, &fresh, &clock))
        return false;
    card->selector = fresh;
    card->clock = clock;
    card->round = 0;
    card->begun = true;
    for (size_t i = 0; i < card->setup.count; i++) {
        struct event event = card->setup.events[i];

        card_give(card, &event);
    }
    give_signals(card);
    follow_selector(&card->follow, &card->selector);
    card_ask_senders(card, 0);
    return true;
}

void card_go_on(struct card *card)
{
    log_go_on(&card->log, &card->selector, &card->clock);
    card->round = clock_ms(&card->clock, monotonic_ns());
    card->begun = true;
    give_plain(card, NURRISPANE_EVENT_TICK, 0, 0);
    give_signals(card);
    follow_selector(&card->follow, &card->selector);
    card_ask_senders(card, card->round);
}

uint64_t card_next(const struct card *card)
{
    uint64_t next = selector_next_due(&card->selector);

    for (uint8_t number = 0; number < PORTS; number++) {
        uint64_t ask = selector_next_ask(&card->selector, number);

        if (port_is_mapped(&card->ports.port[number]) && ask < next)
            next = ask;
    }
    return next;
}
