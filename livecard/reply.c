/*
 * A line in, a line out. An event is replied to once the library has it: "ok MS ANSWER", or
 * "refused NUMBER MS ANSWER: WHY"; what is no event, "cannot: WHY".
 */
#include "reply.h"

#include <stdarg.h>
#include <stdio.h>
#include <string.h>

/* A reply while it is written: what does not fit is left out, and the reply ends with "..". */
struct text {
    char *at;
    size_t room;
};

__attribute__((format(printf, 2, 3))) static void put(struct text *text, const char *format, ...)
{
    va_list values;
    int length;

    va_start(values, format);
    length = vsnprintf(text->at, text->room, format, values);
    va_end(values);
    if (length < 0)
        return;
    if ((size_t)length >= text->room)
        length = text->room > 0 ? (int)text->room - 1 : 0;
    text->at += length;
    text->room -= (size_t)length;
}

/* The answers of the selectors, in words. */
static void put_answers(struct text *text, const struct selector *selector)
{
    char words[48];
    struct answer answer = selector_answer(selector, NURRISPANE_EQUIPMENT);

    answer.number = NURRISPANE_ACCEPTED;
    words_answer(&answer, words, sizeof words);
    put(text, "%s", words);
    if (!profile_is_unit(&selector->profile))
        return;
    answer = selector_answer(selector, NURRISPANE_STATION);
    answer.number = NURRISPANE_ACCEPTED;
    words_answer(&answer, words, sizeof words);
    uint8_t source = selector_station_source(selector);
    if (source == NURRISPANE_NO_INPUT)
        put(text, " / %s squelched", words);
    else
        put(text, " / %s source %u", words, source);
}

/* ---- status */

static void put_codes(struct text *text, const struct selector *selector)
{
    uint8_t codes[PORTS];

    selector_codes(selector, NURRISPANE_EQUIPMENT, codes);
    put(text, " > ");
    for (unsigned port = 0; port < PORTS; port++)
        put(text, "%x", codes[port]);
}

static void put_port(struct text *text, unsigned number, const struct port *port)
{
    const struct port_counts *counts = &port->counts;

    put(text, "; port %u %s %s received %lu sent %lu", number, port->name, port->up ? "up" : "down",
        counts->received, counts->sent);
    if (counts->dropped)
        put(text, " dropped %lu", counts->dropped);
    if (counts->oversized)
        put(text, " oversized %lu", counts->oversized);
    if (counts->unsent)
        put(text, " unsent %lu", counts->unsent);
}

static void put_status(struct text *text, struct card *card)
{
    char log[64];

    ports_count_drops(&card->ports);
    put(text, "ok %llu ", (unsigned long long)card->round);
    put_answers(text, &card->selector);
    put_codes(text, &card->selector);
    for (unsigned number = 0; number < PORTS; number++)
        if (port_is_mapped(&card->ports.port[number]))
            put_port(text, number, &card->ports.port[number]);
    log_status(&card->log, log, sizeof log);
    put(text, "; %s; keep %s; %s", log, card->options->keep ? "on" : "none",
        follow_status(&card->follow));
}

/* ---- explain */

/* What is known of an input: the library's own numbers, with their names. */
static void put_input(struct text *text, const struct card *card, uint8_t half, uint8_t input)
{
    struct nurrispane_status status = selector_status(&card->selector, half, input);
    uint8_t option = card->options->profile.option;

    put(text, "; input %u raw %s passed %s priority %u signal %s%s%s floor %u", input,
        words_quality(option, status.raw), words_quality(option, status.passed), status.priority,
        status.signal ? "good" : "fail", status.locked ? " locked out" : "",
        status.eligible ? " eligible" : "", status.floor);
    if (status.timer)
        put(text, " timer ends at %llu", (unsigned long long)status.timer);
    if (status.frame)
        put(text, " frame counts until %llu", (unsigned long long)status.frame);
}

/* All inputs that are not off, or the one that is named. */
static void put_explained(struct text *text, const struct card *card, uint8_t half, int named)
{
    put(text, "ok %llu ", (unsigned long long)selector_time(&card->selector));
    put_answers(text, &card->selector);
    for (uint8_t input = 0; input < PORTS; input++)
        if (named == input ||
            (named < 0 && selector_status(&card->selector, half, input).priority != 0))
            put_input(text, card, half, input);
}

static void explain(struct text *text, const struct card *card, const char *words, uint8_t half)
{
    unsigned input;
    char more;

    if (sscanf(words, " %c", &more) != 1)
        put_explained(text, card, half, -1);
    else if (sscanf(words, " %2u %c", &input, &more) == 1 && input < PORTS)
        put_explained(text, card, half, (int)input);
    else
        put(text, "cannot: explain, or explain INPUT");
}

/* ---- events */

static bool is_the_links(const struct card *card, const struct event *event)
{
    return event->kind == NURRISPANE_EVENT_SIGNAL && event->input < PORTS &&
           !card->options->console_signals && port_is_mapped(&card->ports.port[event->input]);
}

static void give(struct text *text, struct card *card, const char *line)
{
    static struct spoken spoken;
    char wrong[WRONG_ROOM];

    if (!words_read(line, &card->options->profile, &spoken, wrong)) {
        put(text, "cannot: %s", wrong);
        return;
    }
    if (is_the_links(card, &spoken.event)) {
        put(text, "cannot: the signal of input %u is its link's; --signals console would make it yours",
            spoken.event.input);
        return;
    }
    spoken.event.time = card->round;
    card_give(card, &spoken.event);
    uint8_t number = selector_answer(&card->selector, spoken.event.half).number;
    if (number == NURRISPANE_ACCEPTED)
        put(text, "ok %llu ", (unsigned long long)spoken.event.time);
    else
        put(text, "refused %u %llu ", number, (unsigned long long)spoken.event.time);
    put_answers(text, &card->selector);
    if (number != NURRISPANE_ACCEPTED)
        put(text, ": %s", words_refusal(number));
}

static void begin(struct text *text, struct card *card)
{
    if (!card_begin(card)) {
        put(text, "cannot: the log is still busy with the last ones; try again");
        return;
    }
    put(text, "ok 0 ");
    put_answers(text, &card->selector);
}

/* Whether a line is this one word; what follows it is then at `rest`. */
static bool is_word(const char *line, const char *word, const char **rest)
{
    size_t length = strlen(word);

    line += strspn(line, " \t");
    *rest = line + length;
    return strncmp(line, word, length) == 0 && (line[length] == 0 || strchr(" \t", line[length]));
}

static bool is_alone(const char *rest)
{
    return rest[strspn(rest, " \t")] == 0;
}

void reply_to(void *whom, char *line, char reply[REPLY_ROOM])
{
    struct card *card = whom;
    struct text text = {reply, REPLY_ROOM};
    bool unit = profile_is_unit(&card->options->profile);
    const char *rest, *after;

    line[strcspn(line, "#")] = 0;
    reply[0] = 0;
    if (is_word(line, "status", &rest) && is_alone(rest)) {
        put_status(&text, card);
    } else if (is_word(line, "explain", &rest)) {
        explain(&text, card, rest, NURRISPANE_EQUIPMENT);
    } else if (unit && is_word(line, "e", &rest) && is_word(rest, "explain", &after)) {
        explain(&text, card, after, NURRISPANE_EQUIPMENT);
    } else if (unit && is_word(line, "s", &rest) && is_word(rest, "explain", &after)) {
        explain(&text, card, after, NURRISPANE_STATION);
    } else if (is_word(line, "fresh", &rest) && is_alone(rest)) {
        begin(&text, card);
    } else if (is_word(line, "quit", &rest) && is_alone(rest)) {
        card->quits = true;
        put(&text, "ok %llu quits", (unsigned long long)card->round);
    } else {
        give(&text, card, line);
    }
}
