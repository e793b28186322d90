/*
 * Makes one call of the library in measured(), for callgrind to count: tests/firmware/card --instructions.
 *
 *   instructions CALL    a name of the list below; without one it prints the names
 *
 * The card has sixteen Ethernet inputs whose frames, hold-offs and waits all end at times of their own: as many due moments as there can
 * be. `worst` is an event after all of them, `moment` a part of a tick that serves one, `quick` a frame that says what the last one said.
 */
#include <stdio.h>
#include <string.h>

#include "nurrispane.h"

#define LATE 900000

static const uint8_t source[NURRISPANE_SOURCE_OCTETS] = {2, 0, 0, 0, 0, 1};
static uint8_t frame[NURRISPANE_FRAME_OCTETS], buffer[NURRISPANE_FRAME_OCTETS];
static struct nurrispane_card card;
static struct nurrispane_senders senders;
static struct nurrispane_status status;
static struct nurrispane_codes codes;
static struct nurrispane_words words;
static struct nurrispane_frame told;
static volatile uint64_t sink;

static void event(uint8_t kind, uint64_t time, uint8_t input, uint16_t argument)
{
    nurrispane_step(&card, kind, time, input, argument, NURRISPANE_NO_FRAME, 0);
}

static void call_quick(void)
{
    nurrispane_step(&card, NURRISPANE_EVENT_FRAME, nurrispane_time(&card), 15, 0, frame, sizeof frame);
}

static void call_worst(void)
{
    event(NURRISPANE_EVENT_FORCED, LATE, 3, 0);
}

static void call_choice(void)
{
    event(NURRISPANE_EVENT_PRIORITY, nurrispane_time(&card), 0, 16);
}

static void call_moment(void)
{
    sink = nurrispane_tick_part(&card, LATE, 1);
}

static void call_self_test(void)
{
    sink = nurrispane_self_test();
}

static void call_fresh(void)
{
    nurrispane_fresh(&card, NURRISPANE_OPTION_2, 3, 5);
}

static void call_next_due(void)
{
    sink = nurrispane_next_due(&card);
}

static void call_is_sound(void)
{
    sink = nurrispane_is_sound(&card);
}

static void call_input_status(void)
{
    nurrispane_input_status(&card, 1, &status);
}

static void call_outgoing_codes(void)
{
    nurrispane_outgoing_codes(&card, &codes);
}

static void call_outgoing_words(void)
{
    nurrispane_outgoing_words(&card, &words);
}

static void call_read_frame(void)
{
    nurrispane_read_frame(frame, sizeof frame, &told);
}

static void call_write_frame(void)
{
    sink = nurrispane_write_frame(&card, 1, 0, source, sizeof source, buffer, sizeof buffer);
}

static void call_fresh_sender(void)
{
    nurrispane_fresh_sender(&senders.ports[1]);
}

static void call_ask(void)
{
    nurrispane_ask(&senders, &card, 1, nurrispane_time(&card), source, sizeof source, buffer, sizeof buffer);
}

static const struct {
    const char *name;
    void (*call)(void);
} calls[] = {{"quick", call_quick},
             {"choice", call_choice},
             {"moment", call_moment},
             {"worst", call_worst},
             {"self_test", call_self_test},
             {"fresh", call_fresh},
             {"next_due", call_next_due},
             {"is_sound", call_is_sound},
             {"input_status", call_input_status},
             {"outgoing_codes", call_outgoing_codes},
             {"outgoing_words", call_outgoing_words},
             {"read_frame", call_read_frame},
             {"write_frame", call_write_frame},
             {"fresh_sender", call_fresh_sender},
             {"ask", call_ask}};

enum { CALLS = sizeof calls / sizeof *calls };

__attribute__((noinline)) static void measured(void (*call)(void))
{
    call();
    __asm__ volatile("");
}

/* Option II, in which a choice has more to look at. */
static void make_busy(void)
{
    nurrispane_fresh(&card, NURRISPANE_OPTION_2, 3, 0);
    nurrispane_fresh_senders(&senders);
    nurrispane_write_frame(&card, 0, 0, source, sizeof source, frame, sizeof frame);
    for (uint8_t i = 0; i < NURRISPANE_INPUTS; i++) {
        event(NURRISPANE_EVENT_INPUT_KIND, 0, i, NURRISPANE_INPUT_ETHERNET);
        event(NURRISPANE_EVENT_PRIORITY, 0, i, (uint16_t)(i + 1));
        event(NURRISPANE_EVENT_HOLDOFF, 0, i, (uint16_t)(300 + 60 * i));
        event(NURRISPANE_EVENT_WAIT, 0, i, 1);
        event(NURRISPANE_EVENT_SIGNAL, 0, i, NURRISPANE_SIGNAL_GOOD);
    }
    for (uint64_t time = 10000; time < 70000; time += 4000)
        for (uint8_t i = 0; i < NURRISPANE_INPUTS; i++)
            nurrispane_step(&card, NURRISPANE_EVENT_FRAME, time + 7U * i, i, 0, frame, sizeof frame);
}

int main(int count, char **given)
{
    make_busy();
    for (int i = 0; i < CALLS; i++) {
        if (count < 2)
            printf("%s\n", calls[i].name);
        else if (strcmp(given[1], calls[i].name) == 0) {
            measured(calls[i].call);
            printf("%u due moments served\n", nurrispane_served(&card));
            return 0;
        }
    }
    return count < 2 ? 0 : 2;
}
