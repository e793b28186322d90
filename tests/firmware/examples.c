/*
 * Runs an example of the documents, which tests/firmware/examples has taken out into EXAMPLE, on a clock of its own: a source
 * that tells PRC once a second on input 3, then silence, then the source again. The example has on_start(), on_frame()
 * and on_timer(); what it calls of the firmware around it is below. With SENDS it sends heartbeats, and asks for its timer.
 * With FIVE_LINES it has on_event() and clock_input() in place of on_timer(), and its settings are made here.
 */
#include <stdio.h>
#include <stdlib.h>
#include <string.h>

#include EXAMPLE

#define INPUT 3
#define SECOND 1000
#define GOOD_FOR (400 * SECOND)   /* longer than a wait of five minutes */
#define SILENT_FOR (60 * SECOND)
#define HOLDOVER 5300             /* a frame's life and the fresh hold-off */
#define STEP 100                  /* how often on_timer() is called where the example does not ask */

static const uint8_t source[NURRISPANE_SOURCE_OCTETS] = {0x02, 0, 0, 0, 0, 1};
static uint64_t now, wake, held_at, followed_at;
static unsigned followed = NURRISPANE_NO_INPUT, sent;
static int asked, failures;

static void expect(int holds, const char *what)
{
    if (holds)
        return;
    printf("at %llu ms: %s\n", (unsigned long long)now, what);
    failures = 1;
}

void clock_follow(uint8_t input)
{
    if (followed != input)
        followed_at = now;
    followed = input;
}

void clock_hold(void)
{
    if (followed != NURRISPANE_NO_INPUT)
        held_at = now;
    followed = NURRISPANE_NO_INPUT;
}

#ifdef FIVE_LINES
static void on_timer(uint64_t ms)
{
    on_event(ms, NURRISPANE_EVENT_TICK, 0, 0);
    if (clock_input() == NURRISPANE_NO_INPUT)
        clock_hold();
    else
        clock_follow(clock_input());
}
#endif

#ifdef SENDS
static uint64_t sent_at[NURRISPANE_INPUTS];

void timer_at(uint64_t ms)
{
    wake = ms;
    asked = 1;
}

void port_send(uint8_t port, const uint8_t *frame, size_t length)
{
    struct nurrispane_frame told;

    nurrispane_read_frame(frame, length, &told);
    expect(told.number == NURRISPANE_ACCEPTED, "a frame that is sent is refused when it is read");
    expect(now == 0 || now - sent_at[port] <= SECOND, "a port was silent for more than a second");
    sent_at[port] = now;
    sent++;
}
#endif

static void timer(void)
{
    wake = now + STEP;
#ifdef SENDS
    on_timer(now, source);
#else
    on_timer(now);
#endif
}

/* Time goes on: frames once a second where the source is good, the timer when it is due. */
static void run(uint64_t until, const uint8_t *frame)
{
    uint64_t beat = now + SECOND;

    while (now < until) {
        now = wake < until ? wake : until;
        if (frame && beat <= now)
            now = beat;
        if (frame && now == beat) {
            on_frame(now, INPUT, frame, NURRISPANE_FRAME_OCTETS);
            beat += SECOND;
        }
        if (now == wake)
            timer();
    }
}

int main(void)
{
    struct nurrispane_card other;
    uint8_t frame[NURRISPANE_FRAME_OCTETS];
    uint64_t silent;

    /* A frame that tells PRC, code 2, is what another card sends that follows PRC: here its bits are set. */
    nurrispane_fresh(&other, NURRISPANE_OPTION_1, 0, 0);
    if (nurrispane_write_frame(&other, 0, 0, source, sizeof source, frame, sizeof frame) != NURRISPANE_ACCEPTED)
        return 2;
    frame[27] = (uint8_t)((frame[27] & 0xf0) | 2);
    on_start();
#ifdef FIVE_LINES
    on_event(0, NURRISPANE_EVENT_INPUT_KIND, INPUT, NURRISPANE_INPUT_ETHERNET);
    on_event(0, NURRISPANE_EVENT_PRIORITY, INPUT, 1);
    on_event(0, NURRISPANE_EVENT_SIGNAL, INPUT, NURRISPANE_SIGNAL_GOOD);
#endif
    timer();
    run(GOOD_FOR, frame);
    expect(followed == INPUT, "a good source is not followed");
    silent = now;
    run(now + SILENT_FOR, NULL);
    expect(followed == NURRISPANE_NO_INPUT, "silence is followed");
    expect(held_at <= silent + HOLDOVER, "holdover came late");
    expect(held_at > silent, "holdover came before the silence");
    run(now + GOOD_FOR, frame);
    expect(followed == INPUT, "a source that came back is not followed");
    expect(followed_at > silent + SILENT_FOR, "it was followed before it came back");
#ifdef SENDS
    for (unsigned port = 0; port < NURRISPANE_INPUTS; port++)
        expect(now - sent_at[port] <= SECOND, "a port fell silent");
    expect(asked, "the timer is not asked for");
#endif
    printf("%llu s, holdover after %llu ms, %u frames sent%s\n", (unsigned long long)(now / SECOND),
           (unsigned long long)(held_at - silent), sent, asked ? ", the timer as asked" : "");
    return failures;
}
