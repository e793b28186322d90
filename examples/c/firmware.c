/*
 * Firmware over the library, on a clock of its own: it sleeps until what is next due or the next
 * heartbeat, keeps its card across a restart, and writes a log of every event that it made. What
 * happens around it comes from standard input, as lines of a log; its option is that of the first.
 *
 *     firmware LOG ANSWERS <EVENTS
 *
 * LOG gets every event that it made, its own ticks too, ANSWERS what it was answered. The replay of
 * LOG gives ANSWERS: tests/firmware/card compares. On every 50th event it restarts from the card that it kept.
 */
#include <stdio.h>
#include <string.h>

#include "nurrispane.h"

#define DIGITS "0123456789abcdef"
#define EVENT_DIGITS 22
#define MOST_DIGITS 3050
#define DAY 86400000
#define HEARTBEAT 1000
#define RESTART 50

static struct nurrispane_card card, kept;
static struct nurrispane_senders senders;
static FILE *events, *answers;
static unsigned long made, sent;

/* One event with its frame: made, written into the log, and its card kept. */
static void make(unsigned kind, uint64_t ms, unsigned input, unsigned argument,
                 const uint8_t *frame, size_t length)
{
    nurrispane_step(&card, (uint8_t)kind, ms, (uint8_t)input, (uint16_t)argument, frame, length);
    fprintf(events, "%02x%02x%012llx%02x%04x", kind, nurrispane_option(&card), (unsigned long long)ms,
            input, argument);
    for (size_t i = 0; i < length; i++)
        fprintf(events, "%02x", frame[i]);
    fprintf(events, "\n");
    fprintf(answers, "%02x%02x%02x%02x%02x%02x\n", nurrispane_number(&card), nurrispane_selected(&card),
            nurrispane_clock_state(&card), nurrispane_clock_quality(&card),
            nurrispane_switch_kind(&card), nurrispane_switch_input(&card));
    kept = card;
    made++;
}

/* What is to be sent on each port. A real card would hand the frame to the port. */
static void heartbeats(uint64_t ms)
{
    static const uint8_t source[NURRISPANE_SOURCE_OCTETS] = {0x02, 0, 0, 0, 0, 1};
    uint8_t frame[NURRISPANE_FRAME_OCTETS];

    for (uint8_t port = 0; port < NURRISPANE_INPUTS; port++) {
        nurrispane_ask(&senders, &card, port, ms, source, sizeof source, frame, sizeof frame);
        sent += senders.frame != NURRISPANE_HEARTBEAT_NOTHING;
    }
}

/* Power fails and comes back: all but the kept card is lost. The clock went on. */
static void restart(void)
{
    memset(&card, 0xa5, sizeof card);
    memset(&senders, 0xa5, sizeof senders);
    card = kept;
    nurrispane_fresh_senders(&senders);
}

/* Sleeps up to a time, and wakes for what is due and for heartbeats. */
static void sleep_until(uint64_t until, uint64_t *beat)
{
    if (*beat < nurrispane_time(&card))
        *beat = nurrispane_time(&card);
    for (;;) {
        uint64_t due = nurrispane_next_due(&card), wake = due < *beat ? due : *beat;

        if (wake >= until)
            return;
        if (wake == due)
            make(NURRISPANE_EVENT_TICK, wake, 0, 0, NURRISPANE_NO_FRAME, 0);
        if (wake == *beat) {
            heartbeats(wake);
            *beat += HEARTBEAT;
        }
    }
}

int main(int argc, char **argv)
{
    static char line[MOST_DIGITS + 2];
    static uint8_t frame[MOST_DIGITS / 2];
    unsigned long long ms;
    unsigned kind, option, input, argument, octet;
    uint64_t beat = 0;

    if (argc != 3 || !(events = fopen(argv[1], "w")) || !(answers = fopen(argv[2], "w"))) {
        fprintf(stderr, "usage: %s LOG ANSWERS <EVENTS\n", argv[0]);
        return 2;
    }
    if (!NURRISPANE_BELONGS() || !nurrispane_self_test()) {
        fprintf(stderr, "%s: the library is not the header's, or fails its own test\n", argv[0]);
        return 1;
    }
    nurrispane_fresh(&card, NURRISPANE_OPTION_1, 0, 0);
    nurrispane_fresh_senders(&senders);
    while (fgets(line, sizeof line, stdin)) {
        size_t length = 0;

        if (strspn(line, DIGITS) < EVENT_DIGITS ||
            sscanf(line, "%2x%2x%12llx%2x%4x", &kind, &option, &ms, &input, &argument) != 5)
            continue;
        while (strspn(line + EVENT_DIGITS + 2 * length, DIGITS) >= 2 &&
               sscanf(line + EVENT_DIGITS + 2 * length, "%2x", &octet) == 1)
            frame[length++] = (uint8_t)octet;
        if ((kind == NURRISPANE_EVENT_FRAME) != (length > 0))
            continue;
        if (made == 0)
            nurrispane_fresh(&card, (uint8_t)option, 0, 0);
        if (option != nurrispane_option(&card))
            continue;
        if (ms >= nurrispane_time(&card) && ms < nurrispane_time(&card) + DAY)
            sleep_until(ms, &beat);
        make(kind, ms, input, argument, frame, length);
        heartbeats(nurrispane_time(&card));
        if (made % RESTART == 0)
            restart();
    }
    printf("%lu events made, %lu frames sent\n", made, sent);
    return fclose(events) != 0 || fclose(answers) != 0;
}
