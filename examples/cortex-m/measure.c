/*
 * What each call takes, as found: the deepest stack, by painting, and the most instructions, by the system's timer. The emulator has
 * to run with -icount shift=0, so that its time moves by a nanosecond an instruction; how many that are to a tick of the timer is found
 * out first. Cards that events led to and cards of noise, events that may well be accepted; and a card with 48 due moments.
 */
#include "host.h"
#include "image.h"
#include "memory.h"
#include "nurrispane.h"

static struct nurrispane_card card, busy;
static struct nurrispane_senders senders;
static struct nurrispane_status status;
static struct nurrispane_codes codes;
static struct nurrispane_words words;
static struct nurrispane_frame told;
static const uint8_t source[NURRISPANE_SOURCE_OCTETS] = {0x02, 0, 0, 0, 0, 1};
static uint8_t frame[NURRISPANE_FRAME_OCTETS], buffer[NURRISPANE_FRAME_OCTETS];
static volatile uint32_t sink;

/* The event of the next step. */
static struct {
    uint64_t time;
    uint16_t argument;
    uint8_t kind, input;
    const uint8_t *frame;
    uint32_t length;
} event;

static void call_nothing(void)
{
    __asm__ volatile("");
}

/* 4,000 instructions. */
static void call_thousands(void)
{
    uint32_t left = 2000;

    __asm__ volatile("0: subs %0, #1\n bne 0b" : "+l"(left) : : "cc");
}

static void call_self_test(void)
{
    sink = nurrispane_self_test();
}

static void call_fresh(void)
{
    nurrispane_fresh(&card, NURRISPANE_OPTION_2, 3, 5);
}

static void call_step(void)
{
    nurrispane_step(&card, event.kind, event.time, event.input, event.argument, event.frame, event.length);
}

static void call_next_due(void)
{
    sink = (uint32_t)nurrispane_next_due(&card);
}

static void call_is_sound(void)
{
    sink = nurrispane_is_sound(&card);
}

static void call_input_status(void)
{
    nurrispane_input_status(&card, event.input, &status);
}

static void call_outgoing_codes(void)
{
    nurrispane_outgoing_codes(&card, &codes);
}

static void call_outgoing_words(void)
{
    nurrispane_outgoing_words(&card, &words);
}

static void call_read_frame(void)
{
    nurrispane_read_frame(frame, sizeof frame, &told);
}

static void call_write_frame(void)
{
    sink = nurrispane_write_frame(&card, event.input, 1, source, sizeof source, buffer, sizeof buffer);
}

static void call_fresh_sender(void)
{
    nurrispane_fresh_sender(&senders.ports[0]);
}

static void call_tick_part(void)
{
    sink = nurrispane_tick_part(&card, event.time, 1);
}

static void call_ask(void)
{
    nurrispane_ask(&senders, &card, event.input, event.time, source, sizeof source, buffer, sizeof buffer);
}

/* ---- instructions */

#define SYST_CSR (*(volatile uint32_t *)0xe000e010)
#define SYST_RVR (*(volatile uint32_t *)0xe000e014)
#define SYST_CVR (*(volatile uint32_t *)0xe000e018)
#define LAST_TICK UINT32_C(0xffffff)
#define BY_THE_PROCESSOR UINT32_C(5)

static uint32_t ticks_of(void (*call)(void))
{
    uint32_t before = SYST_CVR;

    call();
    return (before - SYST_CVR) & LAST_TICK;
}

/* How many instructions there are to a thousand ticks, by 4,000 of them again and again. */
static uint32_t per_thousand_ticks(void)
{
    uint32_t ticks = 0;

    SYST_RVR = LAST_TICK;
    SYST_CSR = BY_THE_PROCESSOR;
    for (uint32_t i = 0; i < 200; i++)
        ticks += ticks_of(call_thousands) - ticks_of(call_nothing);
    return ticks > 0 ? 800000000 / ticks : 0;
}

/* ---- events */

static uint32_t seed = UINT32_C(2463534242);

static uint32_t below(uint32_t limit)
{
    seed ^= seed << 13;
    seed ^= seed >> 17;
    seed ^= seed << 5;
    return seed % limit;
}

static void set_event(uint8_t kind, uint64_t time, uint8_t input, uint16_t argument)
{
    event.kind = kind;
    event.time = time;
    event.input = input;
    event.argument = argument;
    event.frame = NURRISPANE_NO_FRAME;
    event.length = 0;
}

static void take(uint8_t kind, uint64_t time, uint8_t input, uint16_t argument)
{
    set_event(kind, time, input, argument);
    call_step();
}

static uint16_t any_argument(uint32_t kind)
{
    static const uint8_t limit[19] = {1, 2, 1, 16, 17, 2, 1, 13, 11, 1, 1, 1, 1, 2, 2, 1, 3, 9, 1};

    if (kind == NURRISPANE_EVENT_HOLDOFF)
        return (uint16_t)(300 + below(1501));
    if (kind == NURRISPANE_EVENT_WORD)
        return below(2) ? 0x04ff : 0x10ff;
    return (uint16_t)below(limit[kind]);
}

/* Any event that may well be accepted. */
static void any_event(void)
{
    static const uint32_t gaps[8] = {0, 1, 100, 299, 1000, 5001, 60000, 1000000};
    uint32_t kind = below(3) == 0 ? NURRISPANE_EVENT_FRAME : 1 + below(18);
    uint64_t time = nurrispane_time(&card) + (below(2) ? gaps[below(8)] : below(50));

    set_event((uint8_t)kind, time, (uint8_t)below(NURRISPANE_INPUTS), any_argument(kind));
    if (kind == NURRISPANE_EVENT_CLEAR_SWITCH || kind == NURRISPANE_EVENT_QUALITY_MODE || kind == NURRISPANE_EVENT_TICK)
        event.input = 0;
    if (kind == NURRISPANE_EVENT_FRAME) {
        event.frame = frame;
        event.length = sizeof frame;
    }
}

static void any_card(void)
{
    for (uint32_t at = 0; at < sizeof card; at++)
        ((uint8_t *)&card)[at] = (uint8_t)below(below(2) ? 256 : 4);
    card.times[32] = below(100000); /* the time */
    card.due[0] = below(100000);
}

/* Sixteen Ethernet inputs whose frames, hold-offs and waits all end at times of their own: as many due moments as there can be. */
static void make_busy(void)
{
    nurrispane_fresh(&card, NURRISPANE_OPTION_2, 3, 0);
    sink = nurrispane_write_frame(&card, 0, 0, source, sizeof source, frame, sizeof frame);
    for (uint8_t i = 0; i < NURRISPANE_INPUTS; i++) {
        take(NURRISPANE_EVENT_INPUT_KIND, 0, i, NURRISPANE_INPUT_ETHERNET);
        take(NURRISPANE_EVENT_PRIORITY, 0, i, (uint16_t)(i + 1));
        take(NURRISPANE_EVENT_HOLDOFF, 0, i, (uint16_t)(300 + 60 * i));
        take(NURRISPANE_EVENT_WAIT, 0, i, 1);
        take(NURRISPANE_EVENT_SIGNAL, 0, i, NURRISPANE_SIGNAL_GOOD);
    }
    for (uint64_t time = 10000; time < 70000; time += 4000) {
        for (uint8_t i = 0; i < NURRISPANE_INPUTS; i++) {
            set_event(NURRISPANE_EVENT_FRAME, time + 7U * i, i, 0);
            event.frame = frame;
            event.length = sizeof frame;
            call_step();
        }
    }
    busy = card;
}

/* ---- the calls */

static struct {
    const char *name;
    void (*call)(void);
    uint32_t octets, ticks;
} calls[] = {{"step", call_step, 0, 0},
             {"self_test", call_self_test, 0, 0},
             {"fresh", call_fresh, 0, 0},
             {"tick_part", call_tick_part, 0, 0},
             {"next_due", call_next_due, 0, 0},
             {"is_sound", call_is_sound, 0, 0},
             {"input_status", call_input_status, 0, 0},
             {"outgoing_codes", call_outgoing_codes, 0, 0},
             {"outgoing_words", call_outgoing_words, 0, 0},
             {"read_frame", call_read_frame, 0, 0},
             {"write_frame", call_write_frame, 0, 0},
             {"fresh_sender", call_fresh_sender, 0, 0},
             {"ask", call_ask, 0, 0}};

enum { CALLS = sizeof calls / sizeof *calls };

/* Makes a call twice on the same card, once on the promised stack and once for its instructions. */
static void measure_call(uint32_t which)
{
    static struct nurrispane_card before;
    uint32_t took;

    before = card;
    took = octets_of(calls[which].call);
    if (took > calls[which].octets)
        calls[which].octets = took;
    card = before;
    took = ticks_of(calls[which].call);
    if (took > calls[which].ticks)
        calls[which].ticks = took;
}

/* A round: the calls that leave the card, then a step. */
static void round_of_calls(uint32_t round)
{
    static struct nurrispane_card before;

    if (round % 8 == 0) {
        before = card;
        for (uint32_t i = 1; i < CALLS; i++) {
            measure_call(i);
            card = before;
        }
    }
    measure_call(0);
}

static int is_served(void)
{
    card = busy;
    set_event(NURRISPANE_EVENT_FORCED, 900000, 3, 0);
    measure_call(0);
    say("the busy card's step served ");
    say_number(nurrispane_served(&card));
    say(" due moments\n");
    return nurrispane_served(&card) >= NURRISPANE_INPUTS && nurrispane_number(&card) == NURRISPANE_ACCEPTED;
}

static void call_thousand_steps(void)
{
    for (uint32_t i = 0; i < 1000; i++)
        call_step();
}

/* A frame that says what the last one said, before anything is due: the quick way, with what loads its arguments. */
static void tell_quick(uint32_t per_thousand)
{
    card = busy;
    set_event(NURRISPANE_EVENT_FRAME, nurrispane_time(&busy), NURRISPANE_INPUTS - 1U, 0);
    event.frame = frame;
    event.length = sizeof frame;
    say("a quick step: instructions ");
    say_number((uint32_t)((uint64_t)ticks_of(call_thousand_steps) * per_thousand / 1000000));
    say("\n");
}

/* All that is due of the busy card, a moment a call: the dearest of these. */
static void tell_moment(uint32_t per_thousand)
{
    uint32_t most = 0, moments = 0;

    card = busy;
    set_event(NURRISPANE_EVENT_TICK, 900000, 0, 0);
    for (sink = 1; sink != 0; moments++) {
        uint32_t took = ticks_of(call_tick_part);

        if (took > most)
            most = took;
    }
    say("a part of a tick with one due moment, of ");
    say_number(moments);
    say(": instructions ");
    say_number((uint32_t)((uint64_t)most * per_thousand / 1000));
    say("\n");
}

static void tell(uint32_t per_thousand)
{
    tell_quick(per_thousand);
    tell_moment(per_thousand);
    for (uint32_t i = 0; i < CALLS; i++) {
        say(calls[i].name);
        say(": stack ");
        say_number(calls[i].octets);
        say(", instructions ");
        say_number((uint32_t)((uint64_t)calls[i].ticks * per_thousand / 1000));
        say("\n");
    }
}

int measure(uint32_t rounds)
{
    uint32_t per_thousand = per_thousand_ticks();
    int served;

    say_number(per_thousand / 1000);
    say(" instructions to a tick of the timer\n");
    make_busy();
    served = is_served();
    nurrispane_fresh_senders(&senders);
    for (uint32_t round = 0; round < rounds; round++) {
        any_event();
        round_of_calls(round);
        if (below(50) == 0)
            card = busy;
        if (nurrispane_time(&card) > UINT64_C(1) << 40 || below(200) == 0)
            nurrispane_fresh(&card, (uint8_t)(1 + below(2)), 3, 5);
    }
    for (uint32_t round = 0; round < rounds; round++) {
        any_card();
        any_event();
        round_of_calls(round);
    }
    tell(per_thousand);
    return served && per_thousand > 0 ? 0 : 1;
}
