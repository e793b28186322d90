/*
 * Runs docs/FIRMWARE.md's examples, which tests/firmware/examples has taken out into EXAMPLE. A kept card: power fails in the
 * middle of each write, at every octet of it, and what is found then is a card that was kept, the last or the one before.
 * Due moments in portions: they lead to the card that one call leads to.
 */
#include <stdio.h>
#include <string.h>

#include EXAMPLE
#include "places.h"

#define ROUNDS 40

static uint8_t slots[2][sizeof(struct record)];
static size_t power; /* octets that are still written; then the write tears */
static unsigned fed;

void slot_read(unsigned slot, void *to, size_t length)
{
    memcpy(to, slots[slot], length);
}

int slot_write(unsigned slot, const void *from, size_t length)
{
    size_t done = power < length ? power : length;

    memcpy(slots[slot], from, done);
    power -= done;
    return done == length;
}

void watchdog_feed(void)
{
    fed++;
}

static int fail(const char *what)
{
    printf("%s\n", what);
    return 1;
}

/* Sixteen Ethernet inputs whose frames, hold-offs and waits all end at times of their own. */
static struct nurrispane_card busy_card(void)
{
    static const uint8_t source[NURRISPANE_SOURCE_OCTETS] = {2, 0, 0, 0, 0, 1};
    uint8_t frame[NURRISPANE_FRAME_OCTETS];
    struct nurrispane_card card;

    nurrispane_fresh(&card, NURRISPANE_OPTION_1, 0, 0);
    nurrispane_write_frame(&card, 0, 0, source, sizeof source, frame, sizeof frame);
    for (uint8_t i = 0; i < NURRISPANE_INPUTS; i++) {
        nurrispane_step(&card, NURRISPANE_EVENT_INPUT_KIND, 0, i, NURRISPANE_INPUT_ETHERNET, NURRISPANE_NO_FRAME, 0);
        nurrispane_step(&card, NURRISPANE_EVENT_PRIORITY, 0, i, (uint16_t)(i + 1), NURRISPANE_NO_FRAME, 0);
        nurrispane_step(&card, NURRISPANE_EVENT_HOLDOFF, 0, i, (uint16_t)(300 + 60 * i), NURRISPANE_NO_FRAME, 0);
        nurrispane_step(&card, NURRISPANE_EVENT_WAIT, 0, i, 1, NURRISPANE_NO_FRAME, 0);
        nurrispane_step(&card, NURRISPANE_EVENT_SIGNAL, 0, i, NURRISPANE_SIGNAL_GOOD, NURRISPANE_NO_FRAME, 0);
    }
    for (uint64_t time = 10000; time < 70000; time += 4000)
        for (uint8_t i = 0; i < NURRISPANE_INPUTS; i++)
            nurrispane_step(&card, NURRISPANE_EVENT_FRAME, time + 7U * i, i, 0, frame, sizeof frame);
    return card;
}

/* What is due before every time to 100,000 ms, in portions of two and at once: 0 where they lead to two cards. */
static int same_in_portions(void)
{
    struct nurrispane_card start = busy_card();

    for (uint64_t ms = nurrispane_time(&start); ms < 100000; ms += 97) {
        struct nurrispane_card once = start, parts = start;

        nurrispane_step(&once, NURRISPANE_EVENT_FORCED, ms, 3, 0, NURRISPANE_NO_FRAME, 0);
        fed = 0;
        serve(&parts, ms);
        if (fed != (nurrispane_served(&once) > 0 ? (nurrispane_served(&once) - 1U) / 2U : 0U))
            return 0;
        nurrispane_step(&parts, NURRISPANE_EVENT_FORCED, ms, 3, 0, NURRISPANE_NO_FRAME, 0);
        if (nurrispane_served(&parts) != 0 || nurrispane_next_due(&parts) != nurrispane_next_due(&once))
            return 0;
        parts.told[TOLD_SERVED] = once.told[TOLD_SERVED];
        parts.due[0] = once.due[0]; /* a bound, that may be nearer or farther */
        if (memcmp(&parts, &once, sizeof parts) != 0)
            return 0;
    }
    return 1;
}

int main(void)
{
    static struct nurrispane_card cards[ROUNDS + 1], found;
    unsigned long torn = 0;

    if (!same_in_portions())
        return fail("due moments served in portions do not lead to the card that one call leads to");

    if (kept(&found))
        return fail("a card was found where none was kept");
    nurrispane_fresh(&cards[0], NURRISPANE_OPTION_1, 0, 0);
    power = SIZE_MAX;
    if (!keep(&cards[0]) || !kept(&found) || memcmp(&found, &cards[0], sizeof found) != 0)
        return fail("the first card is not found");
    for (unsigned round = 1; round <= ROUNDS; round++) {
        uint8_t before[2][sizeof(struct record)];
        uint32_t number = last;

        cards[round] = cards[round - 1];
        nurrispane_step(&cards[round], NURRISPANE_EVENT_PRIORITY, round, (uint8_t)(round % 16), (uint16_t)(round % 17),
                        NURRISPANE_NO_FRAME, 0);
        memcpy(before, slots, sizeof before);
        for (size_t octets = 0; octets < sizeof(struct record); octets++) {
            memcpy(slots, before, sizeof before);
            last = number;
            power = octets;
            if (keep(&cards[round]))
                return fail("a torn write was not told");
            if (!kept(&found))
                return fail("nothing is found after a torn write");
            if (memcmp(&found, &cards[round - 1], sizeof found) != 0 && memcmp(&found, &cards[round], sizeof found) != 0)
                return fail("what is found was never kept");
            torn++;
        }
        memcpy(slots, before, sizeof before);
        last = number;
        power = SIZE_MAX;
        if (!keep(&cards[round]) || !kept(&found) || memcmp(&found, &cards[round], sizeof found) != 0)
            return fail("the last card is not found");
    }
    slots[last % 2][5] ^= 1;
    if (!kept(&found) || memcmp(&found, &cards[ROUNDS - 1], sizeof found) != 0)
        return fail("a record with a bad bit is taken");
    /* a card of another version, whose sum is right */
    memset(slots, 0xff, sizeof slots);
    last = 0;
    found = cards[ROUNDS];
    found.version = NURRISPANE_VERSION - 1;
    if (!keep(&found) || kept(&found))
        return fail("a card of another version is taken");
    memset(slots, 0xff, sizeof slots);
    if (kept(&found))
        return fail("erased memory is taken");
    printf("%lu writes torn, the last card or the one before found each time; due moments in portions lead to the same card\n", torn);
    return 0;
}
