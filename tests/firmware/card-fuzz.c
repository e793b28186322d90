/*
 * Calls the library with anything: cards, senders, frames, lengths and numbers of chance, as include/nurrispane.h allows them. Everything
 * that is lent lies against a page that faults, before it or behind it by chance, with a pattern on the other side; what is lent by a
 * pointer to const lies in memory that can't be written; and each call runs on a stack of NURRISPANE_STACK octets, and OWN_STACK for the
 * function that makes it, with a page that faults under it. What the header promises of any card, and of a card that events led to, is looked at after each call.
 *
 *   card-fuzz [ROUNDS [SEED]]    1,000,000 rounds and seed 1 unless told
 */
#include <stdio.h>
#include <stdlib.h>
#include <string.h>
#include <sys/mman.h>
#include <ucontext.h>
#include <unistd.h>

#include "nurrispane.h"
#include "places.h"

#define PAGE 65536 /* as large as any machine's here */
#define PATTERN 0xc3
#define LOOKED_AT 64
#define OWN_STACK 256

static unsigned long rounds = 1000000, checks, steps, numbers[18], served;
static uint64_t seed = 88172645463325252u;
static ucontext_t here, there;

#define CHECK(fact) check(fact, #fact, __LINE__)

static void check(int fact, const char *text, int line)
{
    checks++;
    if (!fact) {
        printf("tests/firmware/card-fuzz.c:%d: not so: %s\n", line, text);
        exit(1);
    }
}

static uint64_t random_number(void)
{
    seed ^= seed << 13;
    seed ^= seed >> 7;
    seed ^= seed << 17;
    return seed;
}

static unsigned below(unsigned limit)
{
    return (unsigned)(random_number() >> 16) % limit;
}

/* ---- what is lent */

/* A page between two that fault, twice: to be written by this program, and as it is lent. */
struct place {
    uint8_t *written, *lent;
    uint8_t *at; /* of what is lent at present, where this program writes it */
    size_t length;
};

static struct place card_at, twin_at, const_card_at, senders_at, status_at, codes_at, words_at, told_at, frame_at, source_at, buffer_at;

static uint8_t *page_between(int file, int protection)
{
    uint8_t *all = mmap(NULL, 3 * PAGE, PROT_NONE, MAP_PRIVATE | MAP_ANONYMOUS, -1, 0);

    if (all == MAP_FAILED || mmap(all + PAGE, PAGE, protection, MAP_SHARED | MAP_FIXED, file, 0) == MAP_FAILED) {
        perror("card-fuzz: no memory");
        exit(2);
    }
    return all + PAGE;
}

static void make_place(struct place *place, int is_const)
{
    int file = memfd_create("lent", 0);

    if (file < 0 || ftruncate(file, PAGE) != 0) {
        perror("card-fuzz: no memory");
        exit(2);
    }
    place->written = page_between(file, PROT_READ | PROT_WRITE);
    place->lent = is_const ? page_between(file, PROT_READ) : place->written;
    memset(place->written, PATTERN, PAGE);
}

/* Lays a thing of so many octets against one end of its page or the other, and tells where it is lent. */
static void *lay(struct place *place, const void *content, size_t length)
{
    size_t offset = below(2) ? 0 : PAGE - length;

    if (place->at != NULL)
        memset(place->at, PATTERN, place->length);
    place->at = place->written + offset;
    place->length = length;
    if (length > 0)
        memcpy(place->at, content, length);
    return place->lent + offset;
}

/* The octets beside a thing, where no page faults, are as they were. */
static void check_beside(const struct place *place)
{
    const uint8_t *side = place->at == place->written ? place->at + place->length : place->at - LOOKED_AT;
    int kept = 1;

    for (size_t i = 0; i < LOOKED_AT; i++)
        kept &= side[i] == PATTERN;
    CHECK(kept);
}

/* ---- what is called with */

static struct nurrispane_card card;       /* events led to it */
static struct nurrispane_senders senders; /* questions led to them */
static uint8_t octets[1600];

static void fill(void *to, size_t length)
{
    for (size_t at = 0; at < length; at++)
        ((uint8_t *)to)[at] = (uint8_t)(below(3) ? below(20) : below(256));
}

/* A card in which much is due at times near one another. */
static struct nurrispane_card busy_card(void)
{
    struct nurrispane_card made;

    fill(&made, sizeof made);
    for (unsigned i = 0; i < NURRISPANE_INPUTS; i++) {
        made.times[AT_FRAMED + i] = 1 + below(100000);
        made.times[AT_START + i] = below(100000);
        made.small[AT_KIND + i] = (uint8_t)below(3);
    }
    made.times[AT_TIME] = below(2) ? 0 : below(100000);
    made.due[0] = below(10);
    return made;
}

/* A card of noise, or one that events led to with some octets changed. */
static struct nurrispane_card any_card(void)
{
    struct nurrispane_card made = card;

    if (below(4) == 0)
        return busy_card();

    if (below(2)) {
        fill(&made, sizeof made);
        if (below(2)) {
            made.times[AT_TIME] >>= 24;
            made.due[0] = made.times[AT_TIME] + below(800);
        }
        return made;
    }
    for (unsigned left = 1 + below(6); left > 0; left--)
        ((uint8_t *)&made)[below(sizeof made)] = (uint8_t)below(256);
    return made;
}

/* A frame: a right one as often as not, cut, longer, or with an octet changed; any octets. */
static size_t any_frame(void)
{
    static const uint8_t source[NURRISPANE_SOURCE_OCTETS] = {2, 0, 0, 0, 0, 1};
    static const size_t lengths[8] = {0, 1, 59, 60, 61, 1514, 1515, 1600};
    size_t length = below(4) ? 60 : lengths[below(8)];

    memset(octets, 0, sizeof octets);
    nurrispane_write_frame(&card, (uint8_t)below(16), (uint8_t)below(2), source, sizeof source, octets, 60);
    octets[27] = (uint8_t)below(16);
    if (below(4) == 0)
        octets[below(28)] = (uint8_t)below(256);
    if (below(16) == 0)
        fill(octets, length);
    return length;
}

struct call {
    uint8_t kind, input;
    uint16_t argument;
    uint64_t time;
};

static uint64_t any_time(uint64_t from)
{
    static const uint64_t gaps[8] = {0, 1, 100, 300, 1000, 5000, 60000, 900000};

    if (below(40) == 0)
        return random_number() >> below(64);
    if (below(10) == 0)
        return from + 1000000;
    return from + (below(2) ? gaps[below(8)] : below(50)) - (below(30) == 0);
}

static struct call any_call(const struct nurrispane_card *to)
{
    static const uint16_t most[19] = {4, 3, 2, 17, 18, 3, 2000, 14, 12, 2, 2, 2, 2, 3, 3, 2, 4, 10, 4};
    struct call call;

    call.kind = (uint8_t)(below(3) == 0 ? NURRISPANE_EVENT_FRAME : below(50) ? below(19) : below(256));
    call.time = any_time(nurrispane_time(to));
    call.input = (uint8_t)(below(3) ? below(4) : below(30) ? below(16) : below(256));
    if (call.kind == NURRISPANE_EVENT_TICK || call.kind == NURRISPANE_EVENT_QUALITY_MODE || call.kind == NURRISPANE_EVENT_CLEAR_SWITCH)
        call.input = below(10) ? 0 : call.input;
    call.argument = (uint16_t)(below(30) ? below(call.kind < 19 ? most[call.kind] : 2) : random_number());
    if (below(2) && (call.kind == NURRISPANE_EVENT_SIGNAL || call.kind == NURRISPANE_EVENT_WAIT || call.kind == NURRISPANE_EVENT_LOCKOUT))
        call.argument = 0; /* so that some inputs are eligible */
    return call;
}

/* ---- the stack */

/* What the next call is made with. */
static struct {
    struct nurrispane_card *card;
    const struct nurrispane_card *of;
    struct nurrispane_senders *senders;
    struct nurrispane_status *status;
    struct nurrispane_codes *codes;
    struct nurrispane_words *words;
    struct nurrispane_frame *told;
    const uint8_t *frame, *source;
    uint8_t *buffer;
    size_t frame_length, source_length, room;
    uint64_t time, due;
    uint32_t answer;
    uint16_t argument;
    uint8_t kind, input, option, place, event, most;
} with;

static void (*next_call)(void);

static void make_step(void)
{
    nurrispane_step(with.card, with.kind, with.time, with.input, with.argument, with.frame, with.frame_length);
}

static void make_part(void)
{
    with.answer = nurrispane_tick_part(with.card, with.time, with.most);
}

static void make_fresh(void)
{
    nurrispane_fresh(with.card, with.option, with.place, with.argument);
}

static void make_due(void)
{
    with.due = nurrispane_next_due(with.of);
}

static void make_sound(void)
{
    with.answer = nurrispane_is_sound(with.of);
}

static void make_status(void)
{
    nurrispane_input_status(with.of, with.input, with.status);
}

static void make_codes(void)
{
    nurrispane_outgoing_codes(with.of, with.codes);
}

static void make_words(void)
{
    nurrispane_outgoing_words(with.of, with.words);
}

static void make_read(void)
{
    nurrispane_read_frame(with.frame, with.frame_length, with.told);
}

static void make_written(void)
{
    with.answer = nurrispane_write_frame(with.of, with.input, with.event, with.source, with.source_length, with.buffer, with.room);
}

static void make_ask(void)
{
    nurrispane_ask(with.senders, with.of, with.input, with.time, with.source, with.source_length, with.buffer, with.room);
}

static void make_fresh_senders(void)
{
    nurrispane_fresh_senders(with.senders);
}

static void make_self_test(void)
{
    with.answer = nurrispane_self_test();
}

/* Runs on the promised stack, and makes the calls one by one. */
static void make_calls(void)
{
    for (;;) {
        next_call();
        swapcontext(&there, &here);
    }
}

static void on_stack(void (*call)(void))
{
    next_call = call;
    swapcontext(&here, &there);
}

/* ---- the calls */

static int is_input(unsigned number)
{
    return number < NURRISPANE_INPUTS || number == NURRISPANE_NO_INPUT;
}

static void check_answer(const struct nurrispane_card *after)
{
    unsigned number = nurrispane_number(after);

    CHECK(number != 1 && number < 18);
    CHECK(is_input(nurrispane_selected(after)) && is_input(nurrispane_switch_input(after)));
    CHECK(nurrispane_clock_state(after) < 3 && nurrispane_switch_kind(after) < 3 && nurrispane_served(after) <= 48);
    steps++;
    numbers[number]++;
    if (nurrispane_served(after) > served)
        served = nurrispane_served(after);
}

/* A step on a card that events led to, which takes its place, or on any card. */
static void call_step(int led)
{
    struct nurrispane_card before = led ? card : any_card(), after;
    struct call call = any_call(&before);
    size_t length = call.kind == NURRISPANE_EVENT_FRAME || below(8) == 0 ? any_frame() : 0;
    const uint8_t *frame = lay(&frame_at, octets, length);
    uint8_t number;

    with.card = lay(&card_at, &before, sizeof before);
    with.kind = call.kind;
    with.time = call.time;
    with.input = call.input;
    with.argument = call.argument;
    with.frame = length == 0 && below(2) ? NULL : frame;
    with.frame_length = length;
    on_stack(make_step);
    check_beside(&card_at);
    check_beside(&frame_at);
    memcpy(&after, card_at.at, sizeof after);
    check_answer(&after);
    if (below(8) == 0) { /* the same again, elsewhere */
        with.card = lay(&twin_at, &before, sizeof before);
        on_stack(make_step);
        CHECK(memcmp(twin_at.at, &after, sizeof after) == 0);
    }
    if (!led)
        return;
    card = after;
    number = nurrispane_number(&after);
    CHECK(nurrispane_option(&after) == nurrispane_option(&before) && nurrispane_place(&after) == nurrispane_place(&before));
    CHECK(nurrispane_marks(&after) == nurrispane_marks(&before) && after.version == NURRISPANE_VERSION);
    CHECK(after.small[AT_SELECTED] == nurrispane_selected(&after) && after.small[AT_SWITCH_INPUT] == nurrispane_switch_input(&after));
    if (number < 2 || number > 13) {
        CHECK(nurrispane_time(&after) == call.time);
        return;
    }
    before.told[TOLD_NUMBER] = number;
    before.told[TOLD_SERVED] = 0;
    before.due[0] = after.due[0]; /* a bound, which may be made anew */
    CHECK(memcmp(&before, &after, sizeof after) == 0);
}

/* A part of a tick, on a card that events led to, which takes its place, or on any card. */
static void call_part(int led)
{
    struct nurrispane_card before = led ? card : any_card(), after;

    with.card = lay(&card_at, &before, sizeof before);
    with.time = any_time(nurrispane_time(&before));
    with.most = (uint8_t)below(below(4) ? 4 : 256);
    on_stack(make_part);
    check_beside(&card_at);
    memcpy(&after, card_at.at, sizeof after);
    CHECK(with.answer < 2 && nurrispane_served(&after) <= 48);
    CHECK(nurrispane_number(&after) == NURRISPANE_ACCEPTED || nurrispane_number(&after) == NURRISPANE_REFUSED_TIME_TOO_LARGE ||
          nurrispane_number(&after) == NURRISPANE_REFUSED_TIME_BEFORE_STATE);
    CHECK(is_input(nurrispane_selected(&after)) && is_input(nurrispane_switch_input(&after)));
    CHECK(nurrispane_clock_state(&after) < 3 && nurrispane_switch_kind(&after) < 3);
    if (!led)
        return;
    card = after;
    CHECK(nurrispane_served(&after) <= 1 && nurrispane_time(&after) >= nurrispane_time(&before));
}

/* A start, on any card; where it is accepted it is the card that further events lead on. */
static void call_fresh(void)
{
    struct nurrispane_card before = any_card(), after;

    with.option = (uint8_t)(below(8) ? 1 + below(2) : below(256));
    with.place = (uint8_t)below(below(4) ? 9 : 256);
    with.argument = (uint16_t)random_number();
    with.card = lay(&card_at, &before, sizeof before);
    on_stack(make_fresh);
    check_beside(&card_at);
    memcpy(&after, card_at.at, sizeof after);
    if (with.option == NURRISPANE_OPTION_1 || (with.option == NURRISPANE_OPTION_2 && with.place <= 8)) {
        CHECK(nurrispane_number(&after) == NURRISPANE_ACCEPTED && nurrispane_time(&after) == 0);
        CHECK(nurrispane_option(&after) == with.option && after.version == NURRISPANE_VERSION);
        card = after;
        return;
    }
    CHECK(nurrispane_number(&after) == NURRISPANE_REFUSED_ARGUMENT_OUT_OF_RANGE && nurrispane_served(&after) == 0);
    before.told[TOLD_NUMBER] = after.told[TOLD_NUMBER];
    before.told[TOLD_SERVED] = 0;
    CHECK(memcmp(&before, &after, sizeof after) == 0);
}

/* The questions that leave a card, which can't be written here. */
static void call_questions(int led)
{
    struct nurrispane_card of = led ? card : any_card();
    struct nurrispane_status status;

    with.of = lay(&const_card_at, &of, sizeof of);
    with.input = (uint8_t)below(below(4) ? 16 : 256);
    on_stack(make_due);
    on_stack(make_sound);
    fill(&status, sizeof status);
    with.status = lay(&status_at, &status, sizeof status);
    on_stack(make_status);
    memcpy(&status, status_at.at, sizeof status);
    with.codes = lay(&codes_at, octets, sizeof(struct nurrispane_codes));
    on_stack(make_codes);
    with.words = lay(&words_at, octets, sizeof(struct nurrispane_words));
    on_stack(make_words);
    check_beside(&status_at);
    check_beside(&codes_at);
    check_beside(&words_at);
    CHECK(with.answer < 2 && (!led || (with.answer == 1 && with.due > nurrispane_time(&of))));
    CHECK(status.eligible < 2 && status.signal < 2 && status.locked < 2);
    CHECK(status.number == (with.input < NURRISPANE_INPUTS ? NURRISPANE_ACCEPTED : NURRISPANE_REFUSED_INPUT_OUT_OF_RANGE));
    CHECK(with.input < NURRISPANE_INPUTS || (status.timer == 0 && status.raw == 0 && status.floor == 0));
    for (unsigned port = 0; port < NURRISPANE_INPUTS; port++)
        CHECK(((const struct nurrispane_codes *)(const void *)codes_at.at)->codes[port] < 16);
}

static void call_read(void)
{
    size_t length = any_frame();
    const uint8_t *frame = lay(&frame_at, octets, length);
    struct nurrispane_frame told;

    with.frame = length == 0 && below(2) ? NULL : frame;
    with.frame_length = length;
    with.told = lay(&told_at, octets, sizeof told);
    on_stack(make_read);
    memcpy(&told, told_at.at, sizeof told);
    check_beside(&told_at);
    CHECK(told.number == 0 || (told.number >= 8 && told.number <= 13));
    CHECK(told.code < 16 && told.event < 2 && (told.number == 0 || (told.code == 0 && told.event == 0 && told.source[0] == 0)));
    CHECK((length >= 60 && length <= 1514) == (told.number != NURRISPANE_REFUSED_FRAME_LENGTH));
}

/* A frame is written, or one that is due; a refusal leaves the buffer, and what is past 60 octets stays. */
static void call_write(int asks, int led)
{
    struct nurrispane_card of = led ? card : any_card();
    uint8_t kept[101];
    uint32_t number, written = 1;

    with.source_length = below(8) ? 6 : below(9);
    with.room = below(8) ? 60 + below(41) : below(60);
    with.input = (uint8_t)below(below(8) ? 16 : 256);
    with.event = (uint8_t)below(256);
    fill(kept, sizeof kept);
    with.of = lay(&const_card_at, &of, sizeof of);
    with.source = lay(&source_at, octets, with.source_length);
    with.buffer = lay(&buffer_at, kept, with.room);
    if (asks) {
        with.senders = lay(&senders_at, &senders, sizeof senders);
        with.time = any_time(with.input < 16 ? senders.ports[with.input].times[10] : 0);
        on_stack(make_ask);
        check_beside(&senders_at);
        memcpy(&senders, senders_at.at, sizeof senders);
        number = senders.number;
        written = senders.frame;
        CHECK(number < 20 && written < 3 && (number == 0 || written == 0));
    } else {
        on_stack(make_written);
        number = with.answer;
        CHECK(number == (with.input > 15 ? 5U : with.source_length != 6 ? 19U : with.room < 60 ? 18U : 0U));
    }
    check_beside(&buffer_at);
    if (number != 0 || written == 0)
        CHECK(memcmp(buffer_at.at, kept, with.room) == 0);
    else
        CHECK(memcmp(buffer_at.at + 60, kept + 60, with.room - 60) == 0 && memcmp(buffer_at.at + 6, octets, 6) == 0);
}

static void fuzz_rounds(void)
{
    nurrispane_fresh(&card, NURRISPANE_OPTION_1, 0, 0);
    with.senders = lay(&senders_at, octets, sizeof senders);
    on_stack(make_fresh_senders);
    memcpy(&senders, senders_at.at, sizeof senders);
    for (unsigned long round = 0; round < rounds; round++) {
        unsigned which = below(16), led = below(4) != 0;

        if (which < 9)
            call_step(which < 8);
        else if (which == 9)
            call_part((int)led);
        else if (which < 12)
            call_questions((int)led);
        else if (which == 12)
            call_read();
        else if (which < 15)
            call_write(which == 13, (int)led);
        else if (below(20) == 0)
            call_fresh();
        if (round % 20000 == 0) {
            on_stack(make_self_test);
            CHECK(with.answer == 1);
        }
        if (nurrispane_time(&card) > UINT64_C(1) << 47)
            nurrispane_fresh(&card, (uint8_t)(1 + below(2)), (uint8_t)below(9), 5);
        if (below(5000) == 0) {
            fill(&senders, sizeof senders);
            if (below(2))
                nurrispane_fresh_senders(&senders);
        }
    }
}

/* The stack: its lowest octet is the first of a page, and the page below faults. */
static void *make_stack(void)
{
    uint8_t *all = mmap(NULL, 2 * PAGE, PROT_NONE, MAP_PRIVATE | MAP_ANONYMOUS, -1, 0);

    if (all == MAP_FAILED || mprotect(all + PAGE, PAGE, PROT_READ | PROT_WRITE) != 0) {
        perror("card-fuzz: no memory");
        exit(2);
    }
    return all + PAGE;
}

int main(int argc, char **argv)
{
    struct place *writable[] = {&card_at, &twin_at, &senders_at, &status_at, &codes_at, &words_at, &told_at, &buffer_at};
    struct place *constant[] = {&const_card_at, &frame_at, &source_at};

    if (argc > 1)
        rounds = strtoul(argv[1], NULL, 10);
    if (argc > 2)
        seed += strtoul(argv[2], NULL, 10) - 1;
    for (size_t i = 0; i < sizeof writable / sizeof *writable; i++)
        make_place(writable[i], 0);
    for (size_t i = 0; i < sizeof constant / sizeof *constant; i++)
        make_place(constant[i], 1);
    getcontext(&there);
    there.uc_stack.ss_sp = make_stack();
    there.uc_stack.ss_size = NURRISPANE_STACK + OWN_STACK;
    there.uc_link = &here;
    makecontext(&there, make_calls, 0);
    fuzz_rounds();
    for (int number = 2; number < 18; number++) {
        if (rounds >= 100000 && numbers[number] == 0) {
            printf("tests/firmware/card-fuzz.c: no step was refused with %d\n", number);
            return 1;
        }
    }
    printf("fuzz: %lu rounds, %lu steps of which %lu were accepted, at most %lu due moments served, %lu checks hold\n", rounds, steps,
           numbers[0], served, checks);
    return 0;
}
