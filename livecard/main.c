/*
 * A reference card on Ethernet: the proved selector and its senders on packet sockets. One loop sleeps until a
 * frame, a link, a console or its timer wakes it; docs/LIVECARD.md is the guide.
 */
#include <errno.h>
#include <fcntl.h>
#include <limits.h>
#include <signal.h>
#include <stdio.h>
#include <stdlib.h>
#include <string.h>
#include <sys/epoll.h>
#include <sys/file.h>
#include <sys/signalfd.h>
#include <sys/stat.h>
#include <time.h>
#include <unistd.h>

#include "card.h"
#include "links.h"
#include "reply.h"
#include "rights.h"

/* What wakes the loop, by the number in epoll's event; ports are 0 to 15. */
#define TIMER_ID 16
#define LINKS_ID 17
#define SIGNALS_ID 18
#define CONSOLE_ID 19
#define FOLLOW_ID 20
#define CLIENT_ID 32
#define WOKEN (CLIENT_ID + CLIENTS)
#define DROPS_NS 1000000000u
/*
 * Linux takes the processor from a real-time program that has used it for 950 of 1,000 ms, for 50 ms at a stretch,
 * and heartbeats would be late by that: after so long without a pause comes a rest, however much there is to do.
 */
#define WORK_NS (8 * NS_A_MS)
#define REST_NS (1 * NS_A_MS)

struct loop {
    int epoll, timer, links, signals;
    int follow_watched;     /* the follower's pipe in epoll, -1 for none */
    uint64_t drops_counted; /* ns */
    uint64_t rested;        /* ns: when it last slept for as long as a rest */
    bool busy;              /* something is left that no event will tell of */
    struct card card;
};

static struct options options;
static struct loop loop;

/* ---- the start */

static void watch(int fd, uint32_t id)
{
    struct epoll_event event = {.events = EPOLLIN, .data.u32 = id};

    if (fd >= 0 && epoll_ctl(loop.epoll, EPOLL_CTL_ADD, fd, &event) < 0)
        fail("nothing can be watched: %s", strerror(errno));
}

static int open_signals(void)
{
    sigset_t taken;
    int signals;

    sigemptyset(&taken);
    sigaddset(&taken, SIGTERM);
    sigaddset(&taken, SIGINT);
    sigaddset(&taken, SIGHUP);
    sigaddset(&taken, SIGCHLD);
    if (sigprocmask(SIG_BLOCK, &taken, NULL) < 0 || signal(SIGPIPE, SIG_IGN) == SIG_ERR)
        fail("signals cannot be taken: %s", strerror(errno));
    signals = signalfd(-1, &taken, SFD_NONBLOCK | SFD_CLOEXEC);
    if (signals < 0)
        fail("signals cannot be taken: %s", strerror(errno));
    return signals;
}

/* One card at a time writes to a directory or a kept file. */
static void lock(const char *path, const char *option)
{
    char name[PATH_MAX];
    int file;

    snprintf(name, sizeof name, "%s.lock", path);
    file = open(name, O_RDWR | O_CREAT | O_CLOEXEC, 0640);
    if (file < 0 || flock(file, LOCK_EX | LOCK_NB) < 0)
        fail("%s %s: %s", option, path,
             errno == EWOULDBLOCK ? "another card writes there" : strerror(errno));
}

static void open_files(struct card *card)
{
    char path[PATH_MAX];

    if (options.log) {
        if (mkdir(options.log, 0750) < 0 && errno != EEXIST)
            fail("--log %s: %s", options.log, strerror(errno));
        snprintf(path, sizeof path, "%s/card", options.log);
        lock(path, "--log");
    }
    if (options.keep)
        lock(options.keep, "--keep");
    card->log.directory = options.log;
    card->log.keep = options.keep;
    card->log.limit = options.log_limit;
    card->log.setup_lines = card->setup.count;
    keep_boot(card->log.boot);
}

/* Sockets first, while there are rights; then none are left. */
static void open_all(struct card *card)
{
    card->options = &options;
    loop.epoll = epoll_create1(EPOLL_CLOEXEC);
    if (loop.epoll < 0)
        fail("nothing can be watched: %s", strerror(errno));
    loop.signals = open_signals();
    loop.timer = timer_open();
    loop.follow_watched = -1;
    ports_init(&card->ports, options.every_frame);
    for (unsigned number = 0; number < PORTS; number++)
        if (options.interface[number])
            port_open(&card->ports, number, options.interface[number]);
    loop.links = links_open();
    if (options.real_time)
        rights_real_time();
    rights_drop(options.user);
    open_files(card);
    console_open(&card->console, options.console, loop.epoll, CLIENT_ID);
    follow_open(&card->follow, options.follow);
    watch(loop.timer, TIMER_ID);
    watch(loop.links, LINKS_ID);
    watch(loop.signals, SIGNALS_ID);
    watch(card->console.listening, CONSOLE_ID);
    for (uint32_t number = 0; number < PORTS; number++)
        watch(card->ports.port[number].socket, number);
}

static void start(struct card *card)
{
    bool taken_up = log_take_up(&card->log, &card->selector, &options.profile, &card->clock);

    disk_start(options.log, options.keep);
    if (taken_up)
        card_go_on(card);
    else if (!card_begin(card))
        fail("the card cannot begin");
}

/* ---- a round */

/* Frames that came up to `now`, in the order of their times; then the time that all else has in this round. */
static void take_frames(struct card *card, uint64_t now)
{
    const struct frame *frame;
    unsigned number;

    while ((frame = ports_next(&card->ports, now, &number))) {
        struct event event = {.kind = NURRISPANE_EVENT_FRAME,
                              .input = (uint8_t)number,
                              .time = clock_ms(&card->clock, frame->at),
                              .frame = frame->octets,
                              .length = frame->length};

        /* what came before a `fresh` was for the card before */
        if ((int64_t)frame->at >= card->clock.zero)
            card_give(card, &event);
    }
    card->round = ports_are_behind(&card->ports) ? selector_time(&card->selector)
                                                 : clock_ms(&card->clock, now);
}

static void tick(struct card *card)
{
    struct event event = {.kind = NURRISPANE_EVENT_TICK,
                          .time = card->round,
                          .frame = NURRISPANE_NO_FRAME};

    if (card->round >= selector_next_due(&card->selector))
        card_give(card, &event);
}

static void take_signals(struct card *card)
{
    struct signalfd_siginfo told;

    while (read(loop.signals, &told, sizeof told) == sizeof told) {
        if (told.ssi_signo == SIGCHLD)
            follow_reap(&card->follow);
        else
            card->quits = true;
    }
}

/* The follower's pipe is watched while a word waits for it. */
static void watch_follow(struct card *card)
{
    struct epoll_event event = {.events = EPOLLOUT, .data.u32 = FOLLOW_ID};
    int wanted = follow_waits(&card->follow) ? card->follow.pipe : -1;

    if (wanted == loop.follow_watched)
        return;
    /* a pipe that was closed has left epoll by itself */
    if (loop.follow_watched >= 0 && loop.follow_watched == card->follow.pipe &&
        epoll_ctl(loop.epoll, EPOLL_CTL_DEL, loop.follow_watched, NULL) < 0)
        tell("the follower cannot be left: %s", strerror(errno));
    if (wanted >= 0 && epoll_ctl(loop.epoll, EPOLL_CTL_ADD, wanted, &event) < 0)
        tell("the follower cannot be watched: %s", strerror(errno));
    loop.follow_watched = wanted;
}

static void serve(struct card *card, uint32_t id)
{
    if (id == TIMER_ID)
        timer_heard(loop.timer);
    else if (id == LINKS_ID)
        links_read(loop.links, card_link, card);
    else if (id == SIGNALS_ID)
        take_signals(card);
    else if (id == CONSOLE_ID)
        console_accept(&card->console);
    else if (id == FOLLOW_ID)
        follow_write(&card->follow);
    else if (id >= CLIENT_ID)
        console_client(&card->console, id - CLIENT_ID);
}

static void set_timer(struct card *card, uint64_t now)
{
    uint64_t next = card_next(card);

    if (card->follow.again != UINT64_MAX) {
        uint64_t again = clock_ms(&card->clock, card->follow.again) + 1;

        next = again < next ? again : next;
    }
    if (next <= clock_ms(&card->clock, now))
        next = clock_ms(&card->clock, now) + 1;
    timer_set(loop.timer, &card->clock, next);
}

static void round_of(struct card *card, const struct epoll_event *woken, int count, uint64_t now)
{
    ports_begin(&card->ports);
    take_frames(card, now);
    for (int i = 0; i < count; i++)
        serve(card, woken[i].data.u32);
    loop.busy = console_answer(&card->console, reply_to, card);
    tick(card);
    card_ask_senders(card, clock_ms(&card->clock, monotonic_ns()));
    follow_start(&card->follow);
    watch_follow(card);
    if (now >= loop.drops_counted + DROPS_NS) {
        ports_count_drops(&card->ports);
        loop.drops_counted = now;
    }
    loop.busy = loop.busy || ports_are_behind(&card->ports) || ports_have_more(&card->ports);
}

/* Rests where the loop has worked for long without a pause; `slept` is how long it has just waited. */
static void rest(uint64_t slept, uint64_t now)
{
    const struct timespec pause = {.tv_nsec = REST_NS};

    if (slept < REST_NS && now < loop.rested + WORK_NS)
        return;
    /* a rest that a signal cuts short is over */
    if (slept < REST_NS)
        nanosleep(&pause, NULL);
    loop.rested = monotonic_ns();
}

static void run(struct card *card)
{
    struct epoll_event woken[WOKEN];

    while (!card->quits) {
        uint64_t begun = monotonic_ns(), now;
        int count = epoll_wait(loop.epoll, woken, WOKEN, loop.busy ? 0 : -1);

        if (count < 0 && errno != EINTR)
            fail("nothing can be watched: %s", strerror(errno));
        now = monotonic_ns();
        rest(now - begun, now);
        now = monotonic_ns();
        round_of(card, woken, count < 0 ? 0 : count, now);
        set_timer(card, monotonic_ns());
    }
}

/* ---- tasks */

static int run_card(void)
{
    struct card *card = &loop.card;

    setup_read(&card->setup, options.setup, &options.profile);
    setup_try(&card->setup, &options.profile);
    open_all(card);
    links_read(loop.links, card_link, card);
    start(card);
    follow_start(&card->follow);
    set_timer(card, monotonic_ns());
    run(card);
    console_close(&card->console);
    disk_end();
    return 0;
}

/* Words on standard input, lines of a log on standard output: what a console would give. */
static int print_words(void)
{
    static struct spoken spoken;
    char text[SAID_ROOM], line[LINE_ROOM], wrong[WRONG_ROOM];

    while (fgets(text, sizeof text, stdin)) {
        text[strcspn(text, "#\r\n")] = 0;
        if (words_read(text, &options.profile, &spoken, wrong)) {
            log_line(&options.profile, &spoken.event, line);
            fputs(line, stdout);
        } else {
            printf("cannot: %s\n", wrong);
        }
    }
    return ferror(stdin) || fflush(stdout) == EOF ? 2 : 0;
}

/* A file of a log from the state that it starts with: its answers. */
static int replay(void)
{
    char line[LINE_ROOM], answer[ANSWER_ROOM], why[WHY_ROOM] = "there is none";
    uint8_t octets[LONGEST_FRAME];
    struct selector *selector = &loop.card.selector;
    struct event event;
    struct kept kept;

    if (keep_read(options.start, &kept, why) != KEEP_SOUND ||
        !selector_take_up(selector, &kept.profile, kept.state))
        fail("--replay %s: %s", options.start, why);
    for (unsigned long place = 1; fgets(line, sizeof line, stdin); place++) {
        size_t length = strcspn(line, "\n");

        if (line[length] != '\n' || !log_read_line(&kept.profile, line, length, &event, octets))
            fail("line %lu is not as the card writes them", place);
        selector_step(selector, &event);
        selector_answer_line(selector, answer);
        fputs(answer, stdout);
    }
    return ferror(stdin) || fflush(stdout) == EOF ? 2 : 0;
}

int main(int count, char **words)
{
    options_read(count, words, &options);
    if (!selector_belongs())
        fail("the library is not the header's, or fails its own test");
    if (options.task == TASK_WORDS)
        return print_words();
    if (options.task == TASK_REPLAY)
        return replay();
    return run_card();
}
