/* The library's structs, and nothing but them: no other file of the program looks into one. */
#include "selector.h"

#include <stdio.h>
#include <string.h>

/* "1,000 ms or more have passed since its last frame", and "ten of its frames are less than 1,000 ms old" */
#define HEARTBEAT 1000
#define TENTH 9
/* Where a sender has the code of its last frame, and how many frames. */
#define CODE 0
#define SENT 1

static const struct nurrispane_card *card_of(const struct selector *selector, uint8_t half)
{
    if (!profile_is_unit(&selector->profile))
        return &selector->state.card;
    return half == NURRISPANE_STATION ? &selector->state.unit.station
                                      : &selector->state.unit.equipment;
}

bool selector_belongs(void)
{
    return NURRISPANE_UNIT_BELONGS() && nurrispane_self_test();
}

bool profile_is_unit(const struct profile *profile)
{
    return profile->minimum != 0;
}

bool selector_fresh(struct selector *selector, const struct profile *profile)
{
    memset(selector, 0, sizeof *selector);
    selector->profile = *profile;
    if (profile_is_unit(profile))
        nurrispane_unit_fresh(&selector->state.unit, profile->option, profile->place,
                              profile->marks, profile->minimum);
    else
        nurrispane_fresh(&selector->state.card, profile->option, profile->place, profile->marks);
    nurrispane_fresh_senders(&selector->senders);
    return nurrispane_number(card_of(selector, NURRISPANE_EQUIPMENT)) == NURRISPANE_ACCEPTED;
}

void selector_step(struct selector *selector, const struct event *event)
{
    if (profile_is_unit(&selector->profile))
        nurrispane_unit_step(&selector->state.unit, event->half, event->kind, event->time,
                             event->input, event->argument, event->frame, event->length);
    else
        nurrispane_step(&selector->state.card, event->kind, event->time, event->input,
                        event->argument, event->frame, event->length);
}

struct answer selector_answer(const struct selector *selector, uint8_t half)
{
    const struct nurrispane_card *card = card_of(selector, half);

    return (struct answer){nurrispane_number(card),      nurrispane_selected(card),
                           nurrispane_clock_state(card), nurrispane_clock_quality(card),
                           nurrispane_switch_kind(card), nurrispane_switch_input(card)};
}

uint8_t selector_station_source(const struct selector *selector)
{
    return nurrispane_unit_source(&selector->state.unit);
}

static int put_answer(const struct selector *selector, uint8_t half, char *text, size_t room)
{
    struct answer answer = selector_answer(selector, half);

    return snprintf(text, room, "%02x%02x%02x%02x%02x%02x", answer.number, answer.selected,
                    answer.clock_state, answer.clock_quality, answer.switch_kind,
                    answer.switch_input);
}

static int put_codes(const struct selector *selector, uint8_t half, char *text)
{
    static const char digits[] = "0123456789abcdef";
    uint8_t codes[PORTS];

    selector_codes(selector, half, codes);
    text[0] = ' ';
    for (unsigned port = 0; port < PORTS; port++)
        text[1 + port] = digits[codes[port] & 15];
    return 1 + PORTS;
}

void selector_answer_line(const struct selector *selector, char line[ANSWER_ROOM])
{
    int at = put_answer(selector, NURRISPANE_EQUIPMENT, line, ANSWER_ROOM);

    if (profile_is_unit(&selector->profile)) {
        line[at++] = ' ';
        at += put_answer(selector, NURRISPANE_STATION, line + at, (size_t)(ANSWER_ROOM - at));
        at += snprintf(line + at, (size_t)(ANSWER_ROOM - at), " %s %02x",
                       nurrispane_unit_squelched(&selector->state.unit) ? "ais" : "out",
                       nurrispane_unit_source(&selector->state.unit));
        at += put_codes(selector, NURRISPANE_EQUIPMENT, line + at);
        at += put_codes(selector, NURRISPANE_STATION, line + at);
    }
    line[at++] = '\n';
    line[at] = 0;
}

uint64_t selector_time(const struct selector *selector)
{
    return nurrispane_time(card_of(selector, NURRISPANE_EQUIPMENT));
}

uint64_t selector_next_due(const struct selector *selector)
{
    uint64_t due = nurrispane_next_due(card_of(selector, NURRISPANE_EQUIPMENT));

    if (profile_is_unit(&selector->profile)) {
        uint64_t station = nurrispane_next_due(card_of(selector, NURRISPANE_STATION));

        if (station < due)
            due = station;
    }
    return due;
}

void selector_codes(const struct selector *selector, uint8_t half, uint8_t codes[PORTS])
{
    struct nurrispane_codes outgoing;

    nurrispane_outgoing_codes(card_of(selector, half), &outgoing);
    memcpy(codes, outgoing.codes, PORTS);
}

struct nurrispane_status selector_status(const struct selector *selector, uint8_t half,
                                         uint8_t input)
{
    struct nurrispane_status status;

    nurrispane_input_status(card_of(selector, half), input, &status);
    return status;
}

void selector_fresh_senders(struct selector *selector)
{
    nurrispane_fresh_senders(&selector->senders);
}

bool selector_ask(struct selector *selector, uint8_t port, uint64_t ms,
                  const uint8_t source[NURRISPANE_SOURCE_OCTETS],
                  uint8_t frame[NURRISPANE_FRAME_OCTETS])
{
    nurrispane_ask(&selector->senders, card_of(selector, NURRISPANE_EQUIPMENT), port, ms, source,
                   NURRISPANE_SOURCE_OCTETS, frame, NURRISPANE_FRAME_OCTETS);
    return selector->senders.frame != NURRISPANE_HEARTBEAT_NOTHING;
}

uint64_t selector_next_ask(const struct selector *selector, uint8_t port)
{
    const struct nurrispane_sender *sender = &selector->senders.ports[port];
    uint8_t codes[PORTS];

    if (sender->numbers[SENT] == 0)
        return 0;
    selector_codes(selector, NURRISPANE_EQUIPMENT, codes);
    /* a change that is not told yet waits for the ceiling alone */
    return (codes[port] == sender->numbers[CODE] ? sender->times[0] : sender->times[TENTH]) + HEARTBEAT;
}

size_t selector_state_octets(const struct profile *profile)
{
    return profile_is_unit(profile) ? sizeof(struct nurrispane_unit)
                                    : sizeof(struct nurrispane_card);
}

void selector_state(const struct selector *selector, uint8_t octets[STATE_ROOM])
{
    memset(octets, 0, STATE_ROOM);
    memcpy(octets, &selector->state, selector_state_octets(&selector->profile));
}

bool selector_take_up(struct selector *selector, const struct profile *profile,
                      const uint8_t octets[STATE_ROOM])
{
    struct selector kept = {.profile = *profile};

    memcpy(&kept.state, octets, selector_state_octets(profile));
    if (!nurrispane_is_sound(card_of(&kept, NURRISPANE_EQUIPMENT)) ||
        !nurrispane_is_sound(card_of(&kept, NURRISPANE_STATION)))
        return false;
    nurrispane_fresh_senders(&kept.senders);
    *selector = kept;
    return true;
}
