/*
 * The station clock unit on the same machine: events that go to both selectors, and what each answers is what a card by itself answers to
 * a tick at the event's time and then the event. The unit's calls run on the promised stack, and their deepest is told.
 */
#include "host.h"
#include "image.h"
#include "memory.h"
#include "nurrispane.h"

static struct nurrispane_unit unit;
static struct nurrispane_card alone;
static uint8_t kind, input;
static uint16_t argument;
static uint64_t time;

static void call_fresh(void)
{
    nurrispane_unit_fresh(&unit, NURRISPANE_OPTION_2, 3, 5, 4);
}

static void call_step(void)
{
    nurrispane_unit_step(&unit, NURRISPANE_EQUIPMENT, kind, time, input, argument, NURRISPANE_NO_FRAME, 0);
}

static uint32_t seed = UINT32_C(362436069);

static uint32_t below(uint32_t limit)
{
    seed ^= seed << 13;
    seed ^= seed >> 17;
    seed ^= seed << 5;
    return seed % limit;
}

/* A report, an input's kind or a tick, for few inputs, so that some are followed. */
static void any_report(void)
{
    static const uint8_t kinds[6] = {NURRISPANE_EVENT_SIGNAL, NURRISPANE_EVENT_LINE_CODE, NURRISPANE_EVENT_LINE_CODE,
                                     NURRISPANE_EVENT_WORD, NURRISPANE_EVENT_INPUT_KIND, NURRISPANE_EVENT_TICK};

    kind = kinds[below(6)];
    input = kind == NURRISPANE_EVENT_TICK ? 0 : (uint8_t)below(4);
    argument = (uint16_t)(kind == NURRISPANE_EVENT_LINE_CODE ? 2 * below(4) : kind == NURRISPANE_EVENT_WORD ? 0x04ff : below(4) == 0);
    if (kind == NURRISPANE_EVENT_TICK)
        argument = 0;
    time = nurrispane_time(&unit.equipment) + (below(4) ? below(100) : below(400000));
}

static int is_same(const struct nurrispane_card *one, const struct nurrispane_card *other)
{
    return nurrispane_number(one) == nurrispane_number(other) && nurrispane_selected(one) == nurrispane_selected(other) &&
           nurrispane_clock_state(one) == nurrispane_clock_state(other) && nurrispane_clock_quality(one) == nurrispane_clock_quality(other) &&
           nurrispane_switch_kind(one) == nurrispane_switch_kind(other) && nurrispane_switch_input(one) == nurrispane_switch_input(other);
}

static int is_unit_right(uint32_t *deepest, uint32_t *followed)
{
    uint32_t took;

    alone = unit.equipment;
    took = octets_of(call_step);
    if (took > *deepest)
        *deepest = took;
    *followed += nurrispane_clock_state(&unit.equipment) == NURRISPANE_LOCKED;
    nurrispane_step(&alone, NURRISPANE_EVENT_TICK, time, 0, 0, NURRISPANE_NO_FRAME, 0);
    if (nurrispane_number(&alone) == NURRISPANE_ACCEPTED)
        nurrispane_step(&alone, kind, time, input, argument, NURRISPANE_NO_FRAME, 0);
    return is_same(&unit.equipment, &alone) && is_same(&unit.station, &alone);
}

/* Both selectors get the same settings, so that they answer alike. */
static void set_both(uint8_t setting, uint8_t of, uint16_t to)
{
    nurrispane_unit_step(&unit, NURRISPANE_EQUIPMENT, setting, 0, of, to, NURRISPANE_NO_FRAME, 0);
    nurrispane_unit_step(&unit, NURRISPANE_STATION, setting, 0, of, to, NURRISPANE_NO_FRAME, 0);
}

int run_unit(uint32_t rounds)
{
    uint32_t start = octets_of(call_fresh), deepest = 0, followed = 0;

    if (!NURRISPANE_UNIT_BELONGS() || nurrispane_number(&unit.equipment) != NURRISPANE_ACCEPTED || start > NURRISPANE_UNIT_STACK)
        return 1;
    for (uint8_t i = 0; i < 4; i++) {
        set_both(NURRISPANE_EVENT_PRIORITY, i, (uint16_t)(i + 1));
        set_both(NURRISPANE_EVENT_WAIT, i, 0);
    }
    for (uint32_t round = 0; round < rounds; round++) {
        any_report();
        if (!is_unit_right(&deepest, &followed)) {
            say("a unit and a card by itself answer differently\n");
            return 1;
        }
    }
    say("unit: stack of a start ");
    say_number(start);
    say(", of a step ");
    say_number(deepest);
    say(", a clock locked after ");
    say_number(followed);
    say(" of ");
    say_number(rounds);
    say(" events\n");
    return followed > 0 && deepest <= NURRISPANE_UNIT_STACK ? 0 : 1;
}
