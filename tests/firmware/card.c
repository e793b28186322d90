/*
 * Holds the library to include/nurrispane.h: it is the header's and passes its own test, every field lies where the header
 * says, a start has its profile or is refused, words come in and go out, a refusal keeps what it must,
 * any card is safe and answers in range, a card that events lead to is sound and one with an
 * impossible number is not, what is told of an input is what its events make of it, a
 * frame is looked at for a frame event alone, what is next due is next due, frames are written as they
 * are read and read as they are written, senders answer as document 02 says, and no call takes more
 * stack than the header says. tests/firmware/card builds and runs it.
 */
#include <stdio.h>
#include <stdlib.h>
#include <string.h>
#include <sys/mman.h>
#include <ucontext.h>

#include "nurrispane.h"
#include "places.h"

#define RANDOM_EVENTS 100000
#define RANDOM_CARDS 20000

/* A quality in a card. */
#define INVALID 11
#define FAILED 12

static unsigned long checks;

#define CHECK(fact) check(fact, #fact, __LINE__)

static void check(int fact, const char *text, int line)
{
    checks++;
    if (!fact) {
        printf("tests/firmware/card.c:%d: not so: %s\n", line, text);
        exit(1);
    }
}

/* ---- random numbers, the same in every run */

static uint64_t seed = 88172645463325252u;

static uint64_t random_number(void)
{
    seed ^= seed << 13;
    seed ^= seed >> 7;
    seed ^= seed << 17;
    return seed;
}

static unsigned below(unsigned limit)
{
    return (unsigned)(random_number() >> 16) % limit;
}

static int same(const struct nurrispane_card *one, const struct nurrispane_card *other)
{
    return memcmp(one, other, sizeof *one) == 0;
}

/* ---- the fields */

static void check_fresh_of(uint8_t option, uint8_t place, uint16_t marks)
{
    struct nurrispane_card card;
    int two = option == NURRISPANE_OPTION_2;

    memset(&card, 0xa5, sizeof card);
    nurrispane_fresh(&card, option, place, marks);
    CHECK(nurrispane_option(&card) == (two ? NURRISPANE_OPTION_2 : NURRISPANE_OPTION_1));
    CHECK(nurrispane_place(&card) == (two ? place : 0) && nurrispane_marks(&card) == (two ? marks : 0));
    CHECK(card.version == NURRISPANE_VERSION);
    for (unsigned i = 0; i < sizeof card.spare; i++)
        CHECK(card.spare[i] == 0);
    for (unsigned i = 0; i < NURRISPANE_INPUTS; i++) {
        CHECK(card.times[AT_FRAMED + i] == 0 && card.times[AT_START + i] == 0);
        CHECK(card.words[AT_HOLDOFF + i] == 300 && card.small[AT_WAIT + i] == 5 && card.small[AT_PRIORITY + i] == 0);
        CHECK(card.small[AT_FIXED + i] == 0 && card.small[AT_KIND + i] == NURRISPANE_INPUT_LINE);
        CHECK(card.small[AT_LOCKED + i] == 0 && card.small[AT_SENDING + i] == 1);
        CHECK(card.small[AT_FRAME + i] == FAILED && card.small[AT_LINE + i] == FAILED);
        CHECK(card.words[AT_LAST + i] == 0 && card.small[AT_COUNT + i] == 0 && card.small[AT_SIGNAL + i] == 0);
        CHECK(card.small[AT_GOOD + i] == FAILED && card.small[AT_FAILED + i] == 1 && card.small[AT_UP + i] == 0);
        CHECK(card.small[AT_FLOOR + i] == 0);
    }
    CHECK(nurrispane_time(&card) == 0 && card.due[0] == 300 && card.small[AT_MODE] == 1 && card.small[AT_HELD] == 0);
    CHECK(card.small[AT_SWITCH_KIND] == NURRISPANE_SWITCH_NONE);
    CHECK(card.small[AT_SWITCH_INPUT] == NURRISPANE_NO_INPUT);
    CHECK(card.small[AT_SELECTION] == 0 && card.small[AT_SELECTED] == NURRISPANE_NO_INPUT);
    CHECK(nurrispane_number(&card) == NURRISPANE_ACCEPTED && nurrispane_served(&card) == 0);
    CHECK(nurrispane_selected(&card) == NURRISPANE_NO_INPUT);
    CHECK(nurrispane_clock_state(&card) == NURRISPANE_FREE_RUN);
    CHECK(nurrispane_clock_quality(&card) == (two ? 6 : 4));
    CHECK(nurrispane_switch_kind(&card) == NURRISPANE_SWITCH_NONE);
    CHECK(nurrispane_switch_input(&card) == NURRISPANE_NO_INPUT);
}

/* An option that is neither, and option II with a place above 8, are refused, and of the card only its number and its count change. */
static void check_fresh(void)
{
    struct nurrispane_card card, kept;

    CHECK(NURRISPANE_BELONGS() && nurrispane_self_test() == 1);
    for (unsigned option = 0; option < 256; option++) {
        for (unsigned place = 0; place < 256; place++) {
            uint16_t marks = (uint16_t)random_number();

            if (option == NURRISPANE_OPTION_1 || (option == NURRISPANE_OPTION_2 && place <= 8)) {
                check_fresh_of((uint8_t)option, (uint8_t)place, marks);
                continue;
            }
            for (size_t at = 0; at < sizeof card; at++)
                ((uint8_t *)&card)[at] = (uint8_t)below(256);
            kept = card;
            nurrispane_fresh(&card, (uint8_t)option, (uint8_t)place, marks);
            CHECK(nurrispane_number(&card) == NURRISPANE_REFUSED_ARGUMENT_OUT_OF_RANGE && nurrispane_served(&card) == 0);
            card.told[TOLD_NUMBER] = kept.told[TOLD_NUMBER];
            card.told[TOLD_SERVED] = kept.told[TOLD_SERVED];
            CHECK(same(&card, &kept));
        }
    }
}

static struct nurrispane_card card;

static void event(uint8_t kind, uint64_t time, uint8_t input, uint16_t argument)
{
    nurrispane_step(&card, kind, time, input, argument, NURRISPANE_NO_FRAME, 0);
}

/* A fresh card of option I. */
static struct nurrispane_card fresh(void)
{
    struct nurrispane_card made;

    nurrispane_fresh(&made, NURRISPANE_OPTION_1, 0, 0);
    return made;
}

/* A fresh card of one option or the other, with any place and marks. */
static struct nurrispane_card fresh_of_any(void)
{
    struct nurrispane_card made;
    uint8_t option = (uint8_t)(1 + below(2));
    uint8_t place = (uint8_t)below(9);
    uint16_t marks = (uint16_t)random_number();

    nurrispane_fresh(&made, option, place, marks);
    return made;
}

static struct nurrispane_words outgoing_words(const struct nurrispane_card *of)
{
    struct nurrispane_words words;

    nurrispane_outgoing_words(of, &words);
    return words;
}

static struct nurrispane_codes outgoing_codes(const struct nurrispane_card *of)
{
    struct nurrispane_codes codes;

    nurrispane_outgoing_codes(of, &codes);
    return codes;
}

static struct nurrispane_frame read_frame(const uint8_t *frame, size_t length)
{
    struct nurrispane_frame told;

    nurrispane_read_frame(frame, length, &told);
    return told;
}

/* Each field is led to a value that no other has, so that two exchanged would be noticed. */
static void check_fields(void)
{
    static const uint8_t source[NURRISPANE_SOURCE_OCTETS] = {0x02, 0, 0, 0, 0, 1};
    uint8_t frame[NURRISPANE_FRAME_OCTETS];
    struct nurrispane_card other;

    card = fresh();
    event(NURRISPANE_EVENT_PRIORITY, 10, 3, 7);
    event(NURRISPANE_EVENT_HOLDOFF, 20, 3, 1800);
    event(NURRISPANE_EVENT_WAIT, 30, 3, 12);
    event(NURRISPANE_EVENT_SENDING, 40, 3, 0);
    CHECK(card.small[AT_PRIORITY + 3] == 7 && card.words[AT_HOLDOFF + 3] == 1800 && card.small[AT_WAIT + 3] == 12 && card.small[AT_SENDING + 3] == 0);
    event(NURRISPANE_EVENT_SIGNAL, 1000, 3, 0);
    CHECK(card.small[AT_SIGNAL + 3] == 1 && card.small[AT_FAILED + 3] == 1 && card.times[AT_START + 3] == 0);
    event(NURRISPANE_EVENT_LINE_CODE, 1100, 3, 4);
    event(NURRISPANE_EVENT_LINE_CODE, 1101, 3, 4);
    CHECK(card.words[AT_LAST + 3] == 4 && card.small[AT_COUNT + 3] == 2 && card.small[AT_LINE + 3] == FAILED && card.small[AT_GOOD + 3] == FAILED);
    event(NURRISPANE_EVENT_LINE_CODE, 1102, 3, 4);
    CHECK(card.words[AT_LAST + 3] == 4 && card.small[AT_COUNT + 3] == 3 && card.small[AT_LINE + 3] == 2 && card.small[AT_GOOD + 3] == 2);
    CHECK(card.small[AT_FAILED + 3] == 0 && card.small[AT_UP + 3] == 0 && card.times[AT_START + 3] == 1102 && card.times[AT_FRAMED + 3] == 0);
    event(NURRISPANE_EVENT_LINE_CODE, 1200, 3, 8);
    CHECK(card.words[AT_LAST + 3] == 8 && card.small[AT_COUNT + 3] == 1 && card.small[AT_LINE + 3] == 2 && card.small[AT_FRAME + 3] == FAILED);
    event(NURRISPANE_EVENT_FIXED_QUALITY, 1300, 3, 3);
    CHECK(card.small[AT_FIXED + 3] == 3 && card.small[AT_GOOD + 3] == 3 && card.small[AT_LOCKED + 3] == 0 && card.small[AT_KIND + 3] == 0);
    event(NURRISPANE_EVENT_LOCKOUT, 1400, 3, 1);
    CHECK(card.small[AT_LOCKED + 3] == 1);
    event(NURRISPANE_EVENT_LOCKOUT, 1500, 3, 0);
    event(NURRISPANE_EVENT_FLOOR, 1600, 3, 2);
    CHECK(card.small[AT_FLOOR + 3] == 2 && card.small[AT_FIXED + 3] == 3 && card.small[AT_GOOD + 3] == 3 && card.small[AT_PRIORITY + 3] == 7);
    event(NURRISPANE_EVENT_FLOOR, 1700, 3, 4);

    event(NURRISPANE_EVENT_INPUT_KIND, 2000, 9, 1);
    event(NURRISPANE_EVENT_SIGNAL, 2100, 9, 0);
    event(NURRISPANE_EVENT_PRIORITY, 2200, 9, 2);
    CHECK(card.small[AT_KIND + 9] == NURRISPANE_INPUT_ETHERNET && card.small[AT_SIGNAL + 9] == 1 && card.small[AT_PRIORITY + 9] == 2);
    /* a fresh card tells SEC: the frame says 4 */
    other = fresh();
    CHECK(nurrispane_write_frame(&other, 0, 1, source, sizeof source, frame, sizeof frame) ==
          NURRISPANE_ACCEPTED);
    nurrispane_step(&card, NURRISPANE_EVENT_FRAME, 2345, 9, 0, frame, sizeof frame);
    CHECK(nurrispane_number(&card) == NURRISPANE_ACCEPTED);
    CHECK(card.times[AT_FRAMED + 9] == 2345 && card.times[AT_START + 9] == 2345 && card.small[AT_FRAME + 9] == 4);
    CHECK(card.small[AT_LINE + 9] == FAILED && card.small[AT_GOOD + 9] == 4 && card.small[AT_UP + 9] == 0);
    event(NURRISPANE_EVENT_CLEAR_WAIT, 2400, 9, 0);
    CHECK(card.small[AT_UP + 9] == 1 && card.small[AT_FAILED + 9] == 0 && card.times[AT_START + 9] == 2345);
    CHECK(nurrispane_time(&card) == 2400 && card.small[AT_SELECTION] == 1 && card.small[AT_SELECTED] == 9 && card.small[AT_HELD] == 1);
    CHECK(nurrispane_selected(&card) == 9 && nurrispane_clock_state(&card) == NURRISPANE_LOCKED);
    CHECK(nurrispane_clock_quality(&card) == 4 && card.small[AT_SWITCH_KIND] == NURRISPANE_SWITCH_NONE);

    event(NURRISPANE_EVENT_MANUAL, 2500, 9, 0);
    CHECK(card.small[AT_SWITCH_KIND] == NURRISPANE_SWITCH_MANUAL && card.small[AT_SWITCH_INPUT] == 9);
    CHECK(nurrispane_switch_kind(&card) == NURRISPANE_SWITCH_MANUAL && nurrispane_switch_input(&card) == 9);
    event(NURRISPANE_EVENT_FORCED, 2600, 3, 0);
    CHECK(card.small[AT_SWITCH_KIND] == NURRISPANE_SWITCH_FORCED && card.small[AT_SWITCH_INPUT] == 3);
    CHECK(card.small[AT_SELECTED] == 3 && nurrispane_selected(&card) == 3);
    CHECK(nurrispane_clock_state(&card) == NURRISPANE_HOLDOVER && card.small[AT_MODE] == 1);
    event(NURRISPANE_EVENT_QUALITY_MODE, 2700, 0, 0);
    CHECK(card.small[AT_MODE] == 0 && nurrispane_clock_quality(&card) == 0 && nurrispane_time(&card) == 2700);
    event(NURRISPANE_EVENT_TICK, 2699, 0, 0);
    CHECK(nurrispane_number(&card) == NURRISPANE_REFUSED_TIME_BEFORE_STATE && nurrispane_time(&card) == 2700);
    CHECK(nurrispane_selected(&card) == 3 && nurrispane_switch_input(&card) == 3);
    event(NURRISPANE_EVENT_PRIORITY, 2800, 3, 0);
    event(NURRISPANE_EVENT_PRIORITY, 2900, 9, 0);
    CHECK(card.small[AT_SELECTION] == 0 && card.small[AT_SELECTED] == NURRISPANE_NO_INPUT && card.small[AT_HELD] == 1);
}

/* ---- what is known of an input */

static struct nurrispane_status status_of(const struct nurrispane_card *of, uint8_t input)
{
    struct nurrispane_status status;

    memset(&status, 0xa5, sizeof status);
    nurrispane_input_status(of, input, &status);
    return status;
}

/* Raw and passed quality, eligible, timer and frame of an input of the card. */
static int is_known(uint8_t input, uint8_t raw, uint8_t passed, int eligible, uint64_t timer, uint64_t frame)
{
    struct nurrispane_status status = status_of(&card, input);

    return status.number == NURRISPANE_ACCEPTED && status.raw == raw && status.passed == passed &&
           status.eligible == eligible && status.timer == timer && status.frame == frame;
}

/* An Ethernet input with the default hold-off of 300 ms and wait of 5 minutes, worked out by hand. */
static void check_known(uint8_t option, uint8_t told, uint8_t invalid, uint8_t failed, uint8_t floor)
{
    static const uint8_t source[NURRISPANE_SOURCE_OCTETS] = {0x02, 0, 0, 0, 0, 1};
    static const struct nurrispane_status none = {.number = NURRISPANE_REFUSED_INPUT_OUT_OF_RANGE};
    uint8_t frame[NURRISPANE_FRAME_OCTETS];
    struct nurrispane_status status;

    nurrispane_fresh(&card, option, 0, 0);
    CHECK(nurrispane_write_frame(&card, 0, 0, source, sizeof source, frame, sizeof frame) ==
          NURRISPANE_ACCEPTED);
    for (unsigned input = 0; input < 256; input++) {
        status = status_of(&card, (uint8_t)input);
        if (input < NURRISPANE_INPUTS)
            CHECK(is_known((uint8_t)input, failed, failed, 0, 300, 0) && status.floor == floor);
        else
            CHECK(memcmp(&status, &none, sizeof status) == 0);
    }
    event(NURRISPANE_EVENT_INPUT_KIND, 2000, 9, NURRISPANE_INPUT_ETHERNET);
    event(NURRISPANE_EVENT_SIGNAL, 2100, 9, 0);
    event(NURRISPANE_EVENT_PRIORITY, 2200, 9, 2);
    CHECK(is_known(9, failed, failed, 0, 0, 0));
    nurrispane_step(&card, NURRISPANE_EVENT_FRAME, 2345, 9, 0, frame, sizeof frame);
    CHECK(is_known(9, told, failed, 0, 302345, 7345));
    event(NURRISPANE_EVENT_CLEAR_WAIT, 2400, 9, 0);
    CHECK(is_known(9, told, told, 1, 302345, 7345));
    event(NURRISPANE_EVENT_LOCKOUT, 2500, 9, 1);
    status = status_of(&card, 9);
    CHECK(is_known(9, told, told, 0, 302345, 7345) && status.locked == 1 && status.priority == 2);
    event(NURRISPANE_EVENT_LOCKOUT, 2600, 9, 0);
    event(NURRISPANE_EVENT_FLOOR, 2700, 9, 1);
    status = status_of(&card, 9);
    CHECK(is_known(9, told, told, 0, 302345, 7345) && status.floor == 1 && status.signal == 1);
    event(NURRISPANE_EVENT_FLOOR, 2800, 9, floor);
    event(NURRISPANE_EVENT_TICK, 7344, 0, 0);
    CHECK(is_known(9, told, told, 1, 302345, 7345));
    event(NURRISPANE_EVENT_TICK, 7345, 0, 0);
    CHECK(is_known(9, failed, told, 1, 7645, 0));
    event(NURRISPANE_EVENT_TICK, 7644, 0, 0);
    CHECK(is_known(9, failed, told, 1, 7645, 0));
    event(NURRISPANE_EVENT_TICK, 7645, 0, 0);
    CHECK(is_known(9, failed, failed, 0, 0, 0));
    frame[27] = 9;
    nurrispane_step(&card, NURRISPANE_EVENT_FRAME, 8000, 9, 0, frame, sizeof frame);
    CHECK(is_known(9, invalid, failed, 0, 308000, 13000));
    event(NURRISPANE_EVENT_TICK, 308000, 0, 0);
    CHECK(is_known(9, failed, failed, 0, 0, 0));
}

/* On paper invalid and failed are 6 and 7 in option I. */
static uint8_t on_paper(uint8_t quality)
{
    if (nurrispane_option(&card) == NURRISPANE_OPTION_1 && quality >= INVALID)
        return (uint8_t)(quality - INVALID + 6);
    return quality;
}

/* What is known of each input of the card, which events led to, is what its numbers say. */
static void check_statuses(void)
{
    int eligible = 0;

    for (uint8_t i = 0; i < NURRISPANE_INPUTS; i++) {
        uint64_t timer = card.times[AT_START + i] + (card.small[AT_FAILED + i] ? card.words[AT_HOLDOFF + i] : (uint64_t)card.small[AT_WAIT + i] * 60000);
        uint64_t frame = card.small[AT_FRAME + i] == FAILED ? 0 : card.times[AT_FRAMED + i] + 5000;
        struct nurrispane_status status = status_of(&card, i);

        CHECK(is_known(i, on_paper(card.small[AT_FAILED + i] ? FAILED : card.small[AT_GOOD + i]), on_paper(card.small[AT_UP + i] ? card.small[AT_GOOD + i] : FAILED),
                       status.eligible, timer > nurrispane_time(&card) ? timer : 0, frame > nurrispane_time(&card) ? frame : 0));
        CHECK(status.signal == card.small[AT_SIGNAL + i] && status.priority == card.small[AT_PRIORITY + i] && status.locked == card.small[AT_LOCKED + i]);
        CHECK(status.floor == (card.small[AT_FLOOR + i] ? card.small[AT_FLOOR + i] : nurrispane_option(&card) == NURRISPANE_OPTION_1 ? 4 : 6));
        CHECK(status.eligible < 2 && (!status.eligible || (status.priority && !status.locked)));
        CHECK(!status.eligible || status.passed != on_paper(FAILED));
        eligible |= status.eligible;
    }
    if (nurrispane_switch_kind(&card) == NURRISPANE_SWITCH_NONE) {
        CHECK(eligible == (nurrispane_selected(&card) != NURRISPANE_NO_INPUT));
        CHECK(!eligible || status_of(&card, nurrispane_selected(&card)).eligible);
    }
}

/* ---- option II: qualities, words, marks and the place of PROV, by the words of document 02 */

/* Codes and words of qualities 1 to 10; ST4 has no code, and 15 goes out. */
static const uint8_t code_of[11] = {0, 1, 0, 7, 4, 13, 10, 12, 15, 14, 15};
static const uint16_t word_of[11] = {0,      0x04ff, 0x08ff, 0x0cff, 0x78ff, 0x7cff,
                                     0x10ff, 0x22ff, 0x28ff, 0x40ff, 0x30ff};

/* Three words in a row make a quality; the ports tell it, a marked one TNC and ST3E as ST3. */
static void check_words(void)
{
    for (uint8_t place = 0; place <= 8; place++) {
        for (uint8_t quality = 1; quality <= 10; quality++) {
            int usable = quality == 9 ? place > 0 && place < 8 : quality <= 8;
            int marked = quality == 4 || quality == 5;
            struct nurrispane_words words;
            struct nurrispane_codes codes;

            nurrispane_fresh(&card, NURRISPANE_OPTION_2, place, 0x0006);
            event(NURRISPANE_EVENT_WORD, 1, 5, word_of[quality]);
            CHECK(nurrispane_number(&card) == NURRISPANE_REFUSED_WRONG_INPUT_KIND);
            event(NURRISPANE_EVENT_INPUT_KIND, 2, 5, NURRISPANE_INPUT_WORDS);
            CHECK(card.small[AT_KIND + 5] == NURRISPANE_INPUT_WORDS);
            event(NURRISPANE_EVENT_LINE_CODE, 3, 5, 1);
            CHECK(nurrispane_number(&card) == NURRISPANE_REFUSED_WRONG_INPUT_KIND);
            event(NURRISPANE_EVENT_PRIORITY, 4, 5, 1);
            event(NURRISPANE_EVENT_FLOOR, 5, 5, 8);
            event(NURRISPANE_EVENT_WAIT, 6, 5, 0);
            event(NURRISPANE_EVENT_SIGNAL, 7, 5, 0);
            event(NURRISPANE_EVENT_SENDING, 8, 7, 0);
            event(NURRISPANE_EVENT_WORD, 10, 5, word_of[quality]);
            event(NURRISPANE_EVENT_WORD, 11, 5, word_of[quality]);
            CHECK(card.words[AT_LAST + 5] == word_of[quality] && card.small[AT_COUNT + 5] == 2 && card.small[AT_LINE + 5] == FAILED);
            event(NURRISPANE_EVENT_WORD, 12, 5, word_of[quality]);
            CHECK(card.small[AT_LINE + 5] == quality && card.small[AT_GOOD + 5] == quality && card.small[AT_COUNT + 5] == 3);
            CHECK(nurrispane_selected(&card) == (usable ? 5 : NURRISPANE_NO_INPUT));
            CHECK(nurrispane_clock_quality(&card) == (usable ? quality : 6));
            words = outgoing_words(&card);
            codes = outgoing_codes(&card);
            for (unsigned port = 0; port < NURRISPANE_INPUTS; port++) {
                uint8_t told = usable ? quality : 6;

                if (port == 7) {
                    CHECK(words.words[port] == 0x08ff && codes.codes[port] == 15);
                } else if (usable && port == 5) {
                    CHECK(words.words[port] == 0x30ff && codes.codes[port] == 15);
                } else if (usable && marked && (port == 1 || port == 2)) {
                    CHECK(words.words[port] == 0x10ff && codes.codes[port] == 10);
                } else {
                    CHECK(words.words[port] == word_of[told] && codes.codes[port] == code_of[told]);
                }
            }
            event(NURRISPANE_EVENT_QUALITY_MODE, 13, 0, 0);
            words = outgoing_words(&card);
            for (unsigned port = 0; port < NURRISPANE_INPUTS; port++)
                CHECK(words.words[port] == (port == 7 ? 0x08ff : 0x30ff));
        }
    }
    /* words that are not listed read as invalid; option I knows no words */
    nurrispane_fresh(&card, NURRISPANE_OPTION_2, 0, 0);
    event(NURRISPANE_EVENT_INPUT_KIND, 1, 5, NURRISPANE_INPUT_WORDS);
    event(NURRISPANE_EVENT_SIGNAL, 2, 5, 0);
    for (int i = 0; i < 3; i++)
        event(NURRISPANE_EVENT_WORD, 3, 5, 0x1234);
    CHECK(card.small[AT_LINE + 5] == INVALID && card.words[AT_LAST + 5] == 0x1234);
    card = fresh();
    event(NURRISPANE_EVENT_INPUT_KIND, 1, 5, NURRISPANE_INPUT_WORDS);
    CHECK(nurrispane_number(&card) == NURRISPANE_REFUSED_ARGUMENT_OUT_OF_RANGE);
    event(NURRISPANE_EVENT_WORD, 2, 5, 0x04ff);
    CHECK(nurrispane_number(&card) == NURRISPANE_REFUSED_KIND_UNKNOWN);
}

/* ---- what a frame says */

static int says(const uint8_t *frame, size_t length, uint8_t number, uint8_t code, int event,
                const uint8_t *source)
{
    struct nurrispane_frame read = read_frame(frame, length);

    return read.number == number && read.code == code && read.event == event &&
           memcmp(read.source, source, NURRISPANE_SOURCE_OCTETS) == 0;
}

/* Which bits of which octets a frame is refused for, with which number. Nothing else is looked at. */
static const struct {
    unsigned first, last;
    uint8_t bits, number;
} refused_for[] = {{1, 6, 0xff, NURRISPANE_REFUSED_FRAME_DESTINATION},
                   {13, 15, 0xff, NURRISPANE_REFUSED_FRAME_PROTOCOL},
                   {16, 20, 0xff, NURRISPANE_REFUSED_FRAME_ORGANISATION},
                   {21, 21, 0xf0, NURRISPANE_REFUSED_FRAME_VERSION},
                   {25, 27, 0xff, NURRISPANE_REFUSED_FRAME_TLV}};

static void check_reading(void)
{
    static const uint8_t nobody[NURRISPANE_SOURCE_OCTETS];
    static const uint8_t good[28] = {0x01, 0x80, 0xc2, 0, 0, 2, 0xff, 4, 6, 8, 10, 0xfe, 0x88, 0x09,
                                     0x0a, 0, 0x19, 0xa7, 0, 1, 0x10, 0, 0, 0, 1, 0, 4, 0x02};
    uint8_t frame[1515] = {0};

    memcpy(frame, good, sizeof good);
    for (size_t length = 0; length <= sizeof frame; length++) {
        if (length < 60 || length > 1514)
            CHECK(says(frame, length, NURRISPANE_REFUSED_FRAME_LENGTH, 0, 0, nobody));
        else
            CHECK(says(frame, length, NURRISPANE_ACCEPTED, 2, 0, good + 6));
    }
    for (unsigned octet = 1; octet <= 60; octet++) {
        for (unsigned change = 1; change < 256; change++) {
            uint8_t number = NURRISPANE_ACCEPTED;

            frame[octet - 1] ^= (uint8_t)change;
            for (size_t i = 0; i < sizeof refused_for / sizeof *refused_for; i++)
                if (refused_for[i].first <= octet && octet <= refused_for[i].last &&
                    (refused_for[i].bits & change))
                    number = refused_for[i].number;
            if (number != NURRISPANE_ACCEPTED)
                CHECK(says(frame, 60, number, 0, 0, nobody));
            else
                CHECK(says(frame, 60, number, frame[27] & 0x0f, frame[20] >> 3 & 1, frame + 6));
            frame[octet - 1] ^= (uint8_t)change;
        }
    }
}

/* ---- what is written for a port */

static void check_frames(void)
{
    static const uint8_t head[] = {0x01, 0x80, 0xc2, 0, 0, 2, 2, 4, 6, 8, 10, 12,
                                   0x88, 0x09, 0x0a, 0, 0x19, 0xa7, 0, 1};
    static const uint8_t tlv[] = {1, 0, 4};
    const uint8_t *source = head + 6;
    uint8_t buffer[64], kept[64];
    struct nurrispane_codes outgoing;

    memset(kept, 0xa5, sizeof kept);
    card = fresh();
    event(NURRISPANE_EVENT_SENDING, 5, 6, 0);
    outgoing = outgoing_codes(&card);
    for (unsigned port = 0; port < 256; port++) {
        for (unsigned flag = 0; flag < 3; flag++) {
            uint32_t number;

            memcpy(buffer, kept, sizeof buffer);
            number = nurrispane_write_frame(&card, (uint8_t)port, (uint8_t)(flag * 100), source, 6,
                                            buffer, sizeof buffer);
            if (port >= NURRISPANE_INPUTS) {
                CHECK(number == NURRISPANE_REFUSED_INPUT_OUT_OF_RANGE);
                CHECK(memcmp(buffer, kept, sizeof buffer) == 0);
                continue;
            }
            CHECK(number == NURRISPANE_ACCEPTED);
            CHECK(memcmp(buffer, head, sizeof head) == 0);
            CHECK(buffer[20] == (flag ? 0x18 : 0x10));
            CHECK(buffer[21] == 0 && buffer[22] == 0 && buffer[23] == 0);
            CHECK(memcmp(buffer + 24, tlv, sizeof tlv) == 0);
            CHECK(buffer[27] == (port == 6 ? 15 : 11) && buffer[27] == outgoing.codes[port]);
            for (int i = 28; i < 60; i++)
                CHECK(buffer[i] == 0);
            CHECK(memcmp(buffer + 60, kept + 60, 4) == 0);
            for (size_t length = 60; length <= sizeof buffer; length++)
                CHECK(says(buffer, length, NURRISPANE_ACCEPTED, outgoing.codes[port], flag != 0,
                           source));
        }
    }
    memcpy(buffer, kept, sizeof buffer);
    CHECK(nurrispane_write_frame(&card, 16, 0, source, 5, buffer, 59) ==
          NURRISPANE_REFUSED_INPUT_OUT_OF_RANGE);
    for (size_t length = 0; length < 10; length++)
        CHECK(nurrispane_write_frame(&card, 1, 0, head, length, buffer, length == 6 ? 59 : 20) ==
              (length == 6 ? NURRISPANE_REFUSED_BUFFER_TOO_SHORT
                           : NURRISPANE_REFUSED_SOURCE_NOT_SIX));
    CHECK(memcmp(buffer, kept, sizeof buffer) == 0);
}

/* ---- any events, any cards */

struct call {
    uint8_t kind, input;
    uint16_t argument;
    uint64_t time;
    uint8_t frame[80];
    size_t frame_length;
};

/* An event that is often in range, on a card; a frame that is often right. */
static struct call any_call(const struct nurrispane_card *from)
{
    static const uint8_t source[NURRISPANE_SOURCE_OCTETS] = {2, 0, 0, 0, 0, 7};
    static const uint16_t arguments[] = {0, 0, 0, 1, 1, 2, 4, 8, 11, 15, 300, 1800, 65535, 0x04ff, 0x78ff};
    struct call call;

    call.kind = (uint8_t)(below(50) ? below(19) : below(256));
    call.input = (uint8_t)(below(20) ? below(4) : below(256));
    call.argument = arguments[below(sizeof arguments / sizeof *arguments)];
    call.time = nurrispane_time(from) + (below(30) ? below(400) : below(400000));
    if (below(40) == 0)
        call.time = random_number() >> below(64);
    if (below(8) == 0 && call.kind >= 0x0c)
        call.input = 0;
    call.frame_length = 0;
    if (call.kind == NURRISPANE_EVENT_FRAME) {
        memset(call.frame, 0, sizeof call.frame);
        CHECK(nurrispane_write_frame(from, call.input % 16, (uint8_t)below(2), source, 6,
                                     call.frame, sizeof call.frame) == NURRISPANE_ACCEPTED);
        call.frame[27] = (uint8_t)arguments[below(11)];
        call.frame_length = below(20) ? 60 + below(21) : below(81);
        if (below(3) == 0)
            call.frame[below(28)] ^= (uint8_t)(1 << below(8));
        if (below(4))
            call.argument = 0;
    }
    return call;
}

static struct nurrispane_card stepped(struct nurrispane_card from, const struct call *call)
{
    nurrispane_step(&from, call->kind, call->time, call->input, call->argument, call->frame,
                    call->frame_length);
    return from;
}

/* Until what is next due a tick changes no answer, no code and no word; there it serves something. */
static void check_due(uint64_t due)
{
    struct nurrispane_card early = card, there = card;
    struct nurrispane_codes codes = outgoing_codes(&card), then;
    struct nurrispane_words words = outgoing_words(&card), said;
    uint64_t most = due < (uint64_t)1 << 48 ? due - 1 : ((uint64_t)1 << 48) - 1;

    CHECK(due > nurrispane_time(&card));
    nurrispane_step(&early, NURRISPANE_EVENT_TICK, most, 0, 0, NURRISPANE_NO_FRAME, 0);
    then = outgoing_codes(&early);
    CHECK(nurrispane_number(&early) == NURRISPANE_ACCEPTED && nurrispane_served(&early) == 0);
    CHECK(memcmp(early.told + TOLD_SELECTED, card.told + TOLD_SELECTED, 5) == 0);
    said = outgoing_words(&early);
    CHECK(memcmp(&codes, &then, sizeof codes) == 0 && memcmp(&words, &said, sizeof words) == 0);
    early.times[AT_TIME] = nurrispane_time(&card);
    early.due[0] = card.due[0];
    memcpy(early.told, card.told, sizeof early.told);
    CHECK(same(&early, &card));
    if (due >> 48)
        return;
    nurrispane_step(&there, NURRISPANE_EVENT_TICK, due, 0, 0, NURRISPANE_NO_FRAME, 0);
    CHECK(nurrispane_number(&there) == NURRISPANE_ACCEPTED && nurrispane_served(&there) == 1);
}

static int is_sound(struct nurrispane_card kept)
{
    struct nurrispane_card lent = kept;
    uint32_t sound = nurrispane_is_sound(&lent);

    CHECK(sound < 2 && same(&lent, &kept));
    return sound == 1;
}

/* What is due up to a time, in portions: they end where one tick does, and an event then finds nothing due. */
static void check_parts(uint64_t due)
{
    struct nurrispane_card once = card, parts = card, kept = card;
    uint64_t time = due >> 48 == 0 && below(4) ? due + below(2000) : nurrispane_time(&card) + below(400000);
    uint8_t most = (uint8_t)below(6);
    unsigned portion = most ? most : 1, calls = 0;

    if (time >> 48)
        return;
    nurrispane_step(&once, NURRISPANE_EVENT_TICK, time, 0, 0, NURRISPANE_NO_FRAME, 0);
    for (uint32_t more = 1; more; calls++) {
        unsigned left = nurrispane_served(&once) > calls * portion ? nurrispane_served(&once) - calls * portion : 0;

        more = nurrispane_tick_part(&parts, time, most);
        CHECK(more == (left > portion) && nurrispane_number(&parts) == NURRISPANE_ACCEPTED);
        CHECK(nurrispane_served(&parts) == more && is_sound(parts));
        CHECK(more ? nurrispane_next_due(&parts) <= time : nurrispane_time(&parts) == time);
        /* as many ticks at what is next due, one by one */
        for (unsigned i = 0; i < portion && i < left; i++)
            nurrispane_step(&kept, NURRISPANE_EVENT_TICK, nurrispane_next_due(&kept), 0, 0, NURRISPANE_NO_FRAME, 0);
        if (!more)
            nurrispane_step(&kept, NURRISPANE_EVENT_TICK, time, 0, 0, NURRISPANE_NO_FRAME, 0);
        CHECK(same(&parts, &kept));
    }
    CHECK(nurrispane_next_due(&parts) == nurrispane_next_due(&once));
    parts.told[TOLD_SERVED] = once.told[TOLD_SERVED];
    CHECK(parts.due[0] > time && parts.due[0] <= nurrispane_next_due(&parts));
    parts.due[0] = once.due[0]; /* a bound, that may be nearer or farther */
    CHECK(same(&parts, &once));

    /* a time that is refused serves nothing */
    parts = kept = once;
    time = below(2) || time == 0 ? random_number() | (uint64_t)1 << (48 + below(16)) : random_number() % time;
    CHECK(nurrispane_tick_part(&parts, time, most) == 0);
    CHECK(nurrispane_number(&parts) == (time >> 48 ? NURRISPANE_REFUSED_TIME_TOO_LARGE : NURRISPANE_REFUSED_TIME_BEFORE_STATE));
    nurrispane_step(&kept, NURRISPANE_EVENT_TICK, time, 0, 0, NURRISPANE_NO_FRAME, 0);
    CHECK(same(&parts, &kept) && is_sound(parts));
}

/* A fresh card of any profile with two inputs that are eligible, the first of lower quality. */
static void begin(void)
{
    card = fresh_of_any();
    for (uint8_t input = 0; input < 2; input++) {
        event(NURRISPANE_EVENT_PRIORITY, 0, input, 1);
        event(NURRISPANE_EVENT_WAIT, 0, input, 0);
        event(NURRISPANE_EVENT_FIXED_QUALITY, 0, input, (uint16_t)(1 + input));
        event(NURRISPANE_EVENT_SIGNAL, 0, input, 0);
    }
    CHECK(nurrispane_selected(&card) == 0 && nurrispane_clock_quality(&card) == 1);
}

/* A copy of the card with one number in it that no start and no events lead to. */
#define UNSOUND(field, value)            \
    do {                                 \
        struct nurrispane_card k = card; \
        k.field = value;                 \
        CHECK(!is_sound(k));             \
    } while (0)

static unsigned long later[2];

/* The card, which a start and events led to, is sound; what no such card has is not. */
static void check_sound(void)
{
    struct nurrispane_card other = card, there = card;
    uint64_t due = nurrispane_next_due(&card);

    CHECK(is_sound(card));
    other.told[TOLD_NUMBER] = (uint8_t)below(256);
    other.told[TOLD_SERVED] = (uint8_t)below(256);
    CHECK(is_sound(other));
    /* at a later time: just where what was due till then changes nothing */
    if (due >> 48 == 0) {
        nurrispane_step(&there, NURRISPANE_EVENT_TICK, due, 0, 0, NURRISPANE_NO_FRAME, 0);
        other = card;
        other.times[AT_TIME] = due;
        other.due[0] = there.due[0];
        other.told[TOLD_NUMBER] = there.told[TOLD_NUMBER];
        other.told[TOLD_SERVED] = there.told[TOLD_SERVED];
        later[is_sound(other)]++;
        CHECK(is_sound(other) == same(&other, &there));
    }
    UNSOUND(times[AT_TIME], (uint64_t)1 << 48);
    UNSOUND(times[AT_TIME], UINT64_MAX);
    UNSOUND(due[0], nurrispane_time(&card));
    if (due != NURRISPANE_NEVER)
        UNSOUND(due[0], due + 1);
    UNSOUND(told[TOLD_SELECTED], nurrispane_selected(&card) ^ 1);
    UNSOUND(told[TOLD_STATE], 3);
    UNSOUND(told[TOLD_QUALITY], (uint8_t)(nurrispane_clock_quality(&card) + 1));
    UNSOUND(told[TOLD_SWITCH_KIND], 3);
    UNSOUND(told[TOLD_SWITCH_INPUT], 16);
    UNSOUND(version, NURRISPANE_VERSION - 1);
    UNSOUND(version, (uint8_t)(NURRISPANE_VERSION + 1 + below(200)));
    UNSOUND(spare[below(sizeof card.spare)], (uint8_t)(1 + below(255)));
    /* a switch or a selection that is none: just where there was one */
    other = card;
    other.small[AT_SWITCH_KIND] = 3;
    CHECK(is_sound(other) == (nurrispane_switch_kind(&card) == NURRISPANE_SWITCH_NONE));
    other = card;
    other.small[AT_SELECTED] = 17;
    CHECK(is_sound(other) == (nurrispane_selected(&card) == NURRISPANE_NO_INPUT));
}

static void check_events(void)
{
    unsigned long numbers[20] = {0};

    begin();
    for (int i = 0; i < RANDOM_EVENTS; i++) {
        struct call call = any_call(&card);
        struct nurrispane_card before = card;
        uint64_t due = nurrispane_next_due(&card);
        struct nurrispane_card plain = card;
        uint8_t number;

        check_due(due);
        if (i % 10 == 0)
            check_sound();
        if (i % 10 == 5)
            check_parts(due);
        card = stepped(card, &call);
        CHECK(is_sound(card) && card.due[0] > nurrispane_time(&card) && card.due[0] <= nurrispane_next_due(&card));
        /* where it is not known when something is due, all of the plain step is made */
        plain.due[0] = 0;
        plain = stepped(plain, &call);
        plain.due[0] = card.due[0];
        CHECK(same(&card, &plain));
        check_statuses();
        number = nurrispane_number(&card);
        CHECK(number < 18);
        if (number >= 8 && number <= 13)
            CHECK(read_frame(call.frame, call.frame_length).number == number);
        /* something is served exactly where its time has come */
        if (number == NURRISPANE_ACCEPTED || number >= 14)
            CHECK((nurrispane_served(&card) > 0) == (due <= nurrispane_time(&card)));
        numbers[number]++;
        if (number >= 2 && number <= 13) {
            CHECK(nurrispane_served(&card) == 0);
            memcpy(before.told, card.told, sizeof before.told);
            before.due[0] = card.due[0]; /* a bound, which may be made anew */
            CHECK(same(&card, &before));
        } else {
            CHECK(nurrispane_time(&card) == call.time);
        }
        CHECK(card.small[AT_SELECTED] == nurrispane_selected(&card));
        CHECK(card.small[AT_SWITCH_KIND] == nurrispane_switch_kind(&card));
        CHECK(card.small[AT_SWITCH_INPUT] == nurrispane_switch_input(&card));
        CHECK(nurrispane_option(&card) == nurrispane_option(&before) && nurrispane_place(&card) == nurrispane_place(&before));
        CHECK(nurrispane_marks(&card) == nurrispane_marks(&before) && card.version == NURRISPANE_VERSION);
        if (nurrispane_time(&card) > 0xf00000000000 || below(1000) == 0)
            begin();
    }
    for (int number = 2; number < 18; number++)
        CHECK(numbers[number] > 0);
    CHECK(later[0] > 0 && later[1] > 0);
}

/* What a card has selected, and the input of its switch, as its numbers are read. */
static uint8_t selected_in(const struct nurrispane_card *of)
{
    uint8_t selected = of->small[AT_SELECTED];

    return of->small[AT_SELECTION] && selected < 16 ? selected : NURRISPANE_NO_INPUT;
}

static uint8_t switched_in(const struct nurrispane_card *of)
{
    uint8_t kind = of->small[AT_SWITCH_KIND], input = of->small[AT_SWITCH_INPUT];

    return (kind == NURRISPANE_SWITCH_FORCED || kind == NURRISPANE_SWITCH_MANUAL) && input < 16 ? input : NURRISPANE_NO_INPUT;
}

static int is_input(uint8_t number)
{
    return number < 16 || number == NURRISPANE_NO_INPUT;
}

/* The number of a tick's answer. */
static int is_tick(uint8_t number)
{
    return number == NURRISPANE_ACCEPTED || number == NURRISPANE_REFUSED_TIME_TOO_LARGE || number == NURRISPANE_REFUSED_TIME_BEFORE_STATE;
}

static int is_ranged(const struct nurrispane_card *of)
{
    return is_input(nurrispane_selected(of)) && is_input(nurrispane_switch_input(of)) && nurrispane_clock_state(of) < 3 &&
           nurrispane_switch_kind(of) < 3;
}

/* All that is told of two cards is the same, whatever their numbers are. */
static int is_alike(const struct nurrispane_card *one, const struct nurrispane_card *other)
{
    struct nurrispane_codes codes[2] = {outgoing_codes(one), outgoing_codes(other)};
    struct nurrispane_words words[2] = {outgoing_words(one), outgoing_words(other)};
    int alike = nurrispane_time(one) == nurrispane_time(other) && nurrispane_next_due(one) == nurrispane_next_due(other) &&
                selected_in(one) == selected_in(other) && switched_in(one) == switched_in(other) &&
                memcmp(&codes[0], &codes[1], sizeof codes[0]) == 0 && memcmp(&words[0], &words[1], sizeof words[0]) == 0;

    for (uint8_t i = 0; i < NURRISPANE_INPUTS; i++) {
        struct nurrispane_status status[2] = {status_of(one, i), status_of(other, i)};

        alike = alike && memcmp(&status[0], &status[1], sizeof status[0]) == 0;
    }
    return alike;
}

/* A card of any bytes: nothing is promised of the answers, but all are as if it were a state. */
static void check_cards(void)
{
    int refused = 0, whole = 0;

    for (int i = 0; i < RANDOM_CARDS; i++) {
        struct nurrispane_card wild, next, part;
        struct nurrispane_codes outgoing;
        struct call call;
        uint8_t number, most;
        int known = (int)below(2);

        for (size_t at = 0; at < sizeof wild; at++)
            ((uint8_t *)&wild)[at] = (uint8_t)(below(3) ? below(20) : below(256));
        if (below(2)) {
            wild.told[TOLD_SELECTED] = (uint8_t)(below(4) ? below(16) : NURRISPANE_NO_INPUT);
            wild.told[TOLD_SWITCH_INPUT] = (uint8_t)(below(4) ? below(16) : NURRISPANE_NO_INPUT);
            wild.told[TOLD_STATE] = (uint8_t)below(3);
            wild.told[TOLD_SWITCH_KIND] = (uint8_t)below(3);
        }
        if (below(2)) {
            wild.times[AT_TIME] >>= 24;
            wild.due[0] = wild.times[AT_TIME] + below(800);
        }
        if (!known) {
            wild.due[0] = 0;
            wild.told[TOLD_STATE] = 3;
        }
        call = any_call(&wild);
        next = stepped(wild, &call);
        nurrispane_next_due(&wild);
        outgoing_words(&wild);
        if (is_sound(wild))
            CHECK(is_ranged(&wild));
        for (int at = 0; at < 2; at++) {
            struct nurrispane_status status = status_of(&wild, (uint8_t)below(at ? 256 : 16));

            CHECK(status.eligible < 2 && status.signal < 2 && status.locked < 2);
        }
        outgoing = outgoing_codes(&wild);
        number = nurrispane_number(&next);
        CHECK(is_ranged(&next) && nurrispane_served(&next) <= 48 && number < 18);
        for (unsigned port = 0; port < NURRISPANE_INPUTS; port++)
            CHECK(outgoing.codes[port] < 16);
        CHECK(next.version == wild.version && memcmp(next.spare, wild.spare, sizeof wild.spare) == 0);
        if (number >= 2 && number <= 13) {
            /* refused at once: the state is as it was, if not each number that stands for the same */
            refused++;
            CHECK(is_alike(&next, &wild));
        } else if (!known) {
            /* neither an answer nor what is due was there to go by: the answer is that of the state */
            whole++;
            CHECK(nurrispane_time(&next) == call.time);
            CHECK(nurrispane_selected(&next) == selected_in(&next) && nurrispane_switch_input(&next) == switched_in(&next));
        }
        part = wild;
        most = (uint8_t)below(60);
        CHECK(nurrispane_tick_part(&part, call.time, most) < 2 && nurrispane_served(&part) <= 48);
        CHECK(is_ranged(&part) && is_tick(nurrispane_number(&part)));
    }
    CHECK(refused > 100 && whole > 100);
}

/* A frame is looked at for a frame event alone: here it lies where reading faults. */
static void check_unread(void)
{
    uint8_t *nowhere = mmap(NULL, 4096, PROT_NONE, MAP_PRIVATE | MAP_ANONYMOUS, -1, 0);

    CHECK(nowhere != MAP_FAILED);
    for (unsigned kind = 0; kind < 256; kind++) {
        struct nurrispane_card one = fresh(), other = fresh();

        if (kind == NURRISPANE_EVENT_FRAME)
            continue;
        for (uint64_t time = 0; time < 3; time++) {
            nurrispane_step(&one, (uint8_t)kind, time, 0, 1, nowhere, 60 + 1000 * time);
            nurrispane_step(&other, (uint8_t)kind, time, 0, 1, NURRISPANE_NO_FRAME, 0);
            CHECK(same(&one, &other));
        }
    }
    munmap(nowhere, 4096);
}

/* NULL is lent where a length is 0: a frame of none, a buffer of none, an address of none. */
static void check_null(void)
{
    static const uint8_t source[NURRISPANE_SOURCE_OCTETS] = {0x02, 0, 0, 0, 0, 1};
    uint8_t buffer[NURRISPANE_FRAME_OCTETS];
    struct nurrispane_card one = fresh(), other = fresh();
    struct nurrispane_senders senders;

    for (unsigned kind = 0; kind < 256; kind++) {
        nurrispane_step(&one, (uint8_t)kind, kind, 3, 1, NULL, 0);
        nurrispane_step(&other, (uint8_t)kind, kind, 3, 1, NURRISPANE_NO_FRAME, 0);
        CHECK(same(&one, &other));
    }
    nurrispane_step(&one, NURRISPANE_EVENT_INPUT_KIND, 300, 3, NURRISPANE_INPUT_ETHERNET, NULL, 0);
    nurrispane_step(&one, NURRISPANE_EVENT_FRAME, 300, 3, 0, NULL, 0);
    CHECK(nurrispane_number(&one) == NURRISPANE_REFUSED_FRAME_LENGTH);
    CHECK(read_frame(NULL, 0).number == NURRISPANE_REFUSED_FRAME_LENGTH);
    CHECK(nurrispane_write_frame(&one, 0, 0, source, sizeof source, NULL, 0) == NURRISPANE_REFUSED_BUFFER_TOO_SHORT);
    CHECK(nurrispane_write_frame(&one, 0, 0, NULL, 0, buffer, sizeof buffer) == NURRISPANE_REFUSED_SOURCE_NOT_SIX);
    nurrispane_fresh_senders(&senders);
    nurrispane_ask(&senders, &one, 0, 0, source, sizeof source, NULL, 0);
    CHECK(senders.number == NURRISPANE_REFUSED_BUFFER_TOO_SHORT);
    nurrispane_ask(&senders, &one, 0, 0, NULL, 0, buffer, sizeof buffer);
    CHECK(senders.number == NURRISPANE_REFUSED_SOURCE_NOT_SIX);
}

/* ---- senders, against the words of document 02: every frame ever sent is kept and looked at */

#define RANDOM_QUESTIONS 40000

static struct {
    uint64_t time;
    uint8_t code;
} sent[NURRISPANE_INPUTS][RANDOM_QUESTIONS];

static unsigned sent_count[NURRISPANE_INPUTS];
static uint64_t asked[NURRISPANE_INPUTS];

static unsigned number_due(unsigned port, uint64_t time, size_t source, size_t room)
{
    if (time >> 48)
        return NURRISPANE_REFUSED_TIME_TOO_LARGE;
    if (port < NURRISPANE_INPUTS && time < asked[port])
        return NURRISPANE_REFUSED_TIME_BEFORE_STATE;
    if (port >= NURRISPANE_INPUTS)
        return NURRISPANE_REFUSED_INPUT_OUT_OF_RANGE;
    if (room < NURRISPANE_FRAME_OCTETS)
        return NURRISPANE_REFUSED_BUFFER_TOO_SHORT;
    return source == NURRISPANE_SOURCE_OCTETS ? NURRISPANE_ACCEPTED
                                              : NURRISPANE_REFUSED_SOURCE_NOT_SIX;
}

static unsigned frame_due(unsigned port, uint64_t time, uint8_t code)
{
    unsigned count = sent_count[port], later = 0;

    for (unsigned i = 0; i < count; i++)
        later += sent[port][i].time + 1000 > time;
    if (later >= 10)
        return NURRISPANE_HEARTBEAT_NOTHING;
    if (count == 0)
        return NURRISPANE_HEARTBEAT_INFORMATION;
    if (sent[port][count - 1].code != code)
        return NURRISPANE_HEARTBEAT_EVENT;
    return time >= sent[port][count - 1].time + 1000 ? NURRISPANE_HEARTBEAT_INFORMATION
                                                     : NURRISPANE_HEARTBEAT_NOTHING;
}

static void check_senders(void)
{
    static const uint8_t sources[8] = {2, 0, 0, 9, 9, 1, 7, 7};
    unsigned long numbers[20] = {0}, frames[3] = {0};
    struct nurrispane_senders senders;
    uint64_t time = 0;

    memset(&senders, 0xa5, sizeof senders);
    nurrispane_fresh_senders(&senders);
    for (unsigned i = 0; i < NURRISPANE_INPUTS; i++) {
        for (int at = 0; at < 11; at++)
            CHECK(senders.ports[i].times[at] == 0);
        CHECK(senders.ports[i].numbers[0] == 0 && senders.ports[i].numbers[1] == 0);
    }
    CHECK(senders.number == NURRISPANE_ACCEPTED && senders.frame == NURRISPANE_HEARTBEAT_NOTHING);

    card = fresh_of_any();
    for (int i = 0; i < RANDOM_QUESTIONS; i++) {
        struct nurrispane_senders before;
        struct nurrispane_sender one;
        uint32_t said;
        uint8_t buffer[80], kept[80], wanted[80], alone[80];
        unsigned port = below(20) ? below(3) : below(256), number, frame;
        size_t source = below(20) ? 6 : below(9), room = below(20) ? 60 + below(21) : below(81);
        uint64_t at;
        uint8_t code;

        if (below(6) == 0) {
            struct call call = any_call(&card);

            if (call.time < nurrispane_time(&card) + 400)
                card = stepped(card, &call);
        }
        time += below(3) ? below(120) : below(2) ? below(4) : below(1100);
        at = below(30) ? time : below(2) ? time - (time < 50 ? 0 : below(50)) : random_number();
        number = number_due(port, at, source, room);
        code = port < 16 ? outgoing_codes(&card).codes[port] : 0;
        frame = number == NURRISPANE_ACCEPTED ? frame_due(port, at, code) : 0;
        for (size_t o = 0; o < sizeof kept; o++)
            kept[o] = (uint8_t)below(256);
        memcpy(buffer, kept, sizeof buffer);
        memcpy(wanted, kept, sizeof wanted);
        if (frame)
            CHECK(nurrispane_write_frame(&card, (uint8_t)port, frame == NURRISPANE_HEARTBEAT_EVENT,
                                         sources, source, wanted, room) == NURRISPANE_ACCEPTED);
        before = senders;
        one = senders.ports[port % 16];
        memcpy(alone, kept, sizeof alone);
        said = nurrispane_ask_sender(&one, &card, (uint8_t)port, at, sources, source, alone, room);
        nurrispane_ask(&senders, &card, (uint8_t)port, at, sources, source, buffer, room);
        CHECK(senders.number == number && senders.frame == frame);
        CHECK(memcmp(buffer, wanted, sizeof buffer) == 0);
        CHECK(memcmp(buffer, alone, sizeof buffer) == 0 && memcmp(&one, &senders.ports[port % 16], sizeof one) == 0);
        CHECK(port > 15 || said == (number ? 256 * number : frame));
        numbers[number]++;
        if (number != NURRISPANE_ACCEPTED) {
            CHECK(memcmp(&before.ports, &senders.ports, sizeof before.ports) == 0);
            continue;
        }
        frames[frame]++;
        asked[port] = at;
        if (frame) {
            sent[port][sent_count[port]].time = at;
            sent[port][sent_count[port]++].code = code;
        }
        before.ports[port] = senders.ports[port];
        CHECK(memcmp(&before.ports, &senders.ports, sizeof before.ports) == 0);
        if (at > time)
            time = at;
        if (time >> 47) {
            nurrispane_fresh_senders(&senders);
            memset(sent_count, 0, sizeof sent_count);
            memset(asked, 0, sizeof asked);
            card = fresh_of_any();
            time = 0;
        }
    }
    CHECK(numbers[0] > 0 && numbers[3] > 0 && numbers[4] > 0 && numbers[5] > 0);
    CHECK(numbers[18] > 0 && numbers[19] > 0);
    CHECK(frames[0] > 0 && frames[1] > 0 && frames[2] > 0);

    for (int i = 0; i < RANDOM_CARDS; i++) {
        struct nurrispane_card wild;
        uint8_t buffer[60];

        for (size_t at = 0; at < sizeof wild; at++)
            ((uint8_t *)&wild)[at] = (uint8_t)below(256);
        for (size_t at = 0; at < sizeof senders; at++)
            ((uint8_t *)&senders)[at] = (uint8_t)(below(3) ? below(20) : below(256));
        nurrispane_ask(&senders, &wild, (uint8_t)below(18), random_number() >> below(64), sources, 6,
                       buffer, sizeof buffer);
        CHECK(senders.number < 20 && senders.frame < 3);
    }
}

/* ---- stack: a call is run on a painted stack, and the lowest byte that changed is looked for */

#define STACK_SIZE 65536
#define PAINT 0x5a

static uint8_t stack[STACK_SIZE] __attribute__((aligned(16)));
static ucontext_t here, there;
static struct call stack_call;
static struct nurrispane_card stack_card;
static struct nurrispane_status stack_status;
static struct nurrispane_codes stack_codes;
static struct nurrispane_words stack_words;
static struct nurrispane_frame stack_read;
static struct nurrispane_senders stack_senders;
static uint64_t stack_due;
static uint32_t stack_sound;
static uint8_t stack_frame[NURRISPANE_FRAME_OCTETS];

static void run_nothing(void)
{
}

static void run_self_test(void)
{
    stack_sound = nurrispane_self_test();
}

static void run_fresh(void)
{
    nurrispane_fresh(&stack_card, NURRISPANE_OPTION_2, 3, 5);
}

static void run_step(void)
{
    nurrispane_step(&stack_card, stack_call.kind, stack_call.time, stack_call.input,
                    stack_call.argument, stack_call.frame, stack_call.frame_length);
}

static void run_part(void)
{
    stack_sound = nurrispane_tick_part(&stack_card, stack_call.time, 48);
}

static void run_due(void)
{
    stack_due = nurrispane_next_due(&card);
}

static void run_sound(void)
{
    stack_sound = nurrispane_is_sound(&card);
}

static void run_status(void)
{
    nurrispane_input_status(&card, 1, &stack_status);
}

static void run_codes(void)
{
    nurrispane_outgoing_codes(&card, &stack_codes);
}

static void run_words(void)
{
    nurrispane_outgoing_words(&card, &stack_words);
}

static void run_read(void)
{
    nurrispane_read_frame(stack_call.frame, stack_call.frame_length, &stack_read);
}

static void run_write(void)
{
    nurrispane_write_frame(&card, 1, 0, stack_call.frame, 6, stack_frame, sizeof stack_frame);
}

static void run_fresh_sender(void)
{
    nurrispane_fresh_sender(&stack_senders.ports[1]);
}

static void run_ask(void)
{
    nurrispane_ask(&stack_senders, &card, 1, stack_call.time, stack_call.frame, 6, stack_frame,
                   sizeof stack_frame);
}

static size_t stack_of(void (*run)(void))
{
    size_t low = 0;

    memset(stack, PAINT, sizeof stack);
    getcontext(&there);
    there.uc_stack.ss_sp = stack;
    there.uc_stack.ss_size = sizeof stack;
    there.uc_link = &here;
    makecontext(&there, run, 0);
    swapcontext(&here, &there);
    while (low < sizeof stack && stack[low] == PAINT)
        low++;
    return sizeof stack - low;
}

static void check_stack(void)
{
    static const struct {
        const char *name;
        void (*run)(void);
        size_t limit;
    } runs[] = {{"self_test", run_self_test, NURRISPANE_STACK_SELF_TEST},
                {"fresh", run_fresh, NURRISPANE_STACK_FRESH},
                {"step", run_step, NURRISPANE_STACK_STEP},
                {"tick_part", run_part, NURRISPANE_STACK_TICK_PART},
                {"next_due", run_due, NURRISPANE_STACK_NEXT_DUE},
                {"is_sound", run_sound, NURRISPANE_STACK_IS_SOUND},
                {"input_status", run_status, NURRISPANE_STACK_INPUT_STATUS},
                {"outgoing_codes", run_codes, NURRISPANE_STACK_OUTGOING_CODES},
                {"outgoing_words", run_words, NURRISPANE_STACK_OUTGOING_WORDS},
                {"read_frame", run_read, NURRISPANE_STACK_READ_FRAME},
                {"write_frame", run_write, NURRISPANE_STACK_WRITE_FRAME},
                {"fresh_sender", run_fresh_sender, NURRISPANE_STACK_FRESH_SENDER},
                {"ask", run_ask, NURRISPANE_STACK_ASK}};
    enum { RUNS = sizeof runs / sizeof *runs };
    size_t most[RUNS] = {0}, nothing = stack_of(run_nothing);

    card = fresh_of_any();
    for (int i = 0; i < 2000; i++) {
        stack_call = any_call(&card);
        for (int r = 0; r < RUNS; r++) {
            size_t used;

            stack_card = card;
            used = stack_of(runs[r].run);
            if (used > nothing + most[r])
                most[r] = used - nothing;
        }
        card = stepped(card, &stack_call);
    }
    printf("stack:");
    for (int r = 0; r < RUNS; r++) {
        printf("%s %s %zu", r ? "," : "", runs[r].name, most[r]);
        CHECK(most[r] <= runs[r].limit && runs[r].limit <= NURRISPANE_STACK);
    }
    printf(" bytes\n");
}

int main(void)
{
    check_fresh();
    check_fields();
    check_known(NURRISPANE_OPTION_1, 4, 6, 7, 4);
    check_known(NURRISPANE_OPTION_2, 6, 11, 12, 6);
    check_words();
    check_reading();
    check_frames();
    check_events();
    check_cards();
    check_unread();
    check_null();
    check_senders();
    check_stack();
    printf("sizes: card %zu, status %zu, codes %zu, words %zu, frame %zu, senders %zu, sender %zu bytes\n",
           sizeof(struct nurrispane_card), sizeof(struct nurrispane_status), sizeof(struct nurrispane_codes),
           sizeof(struct nurrispane_words), sizeof(struct nurrispane_frame), sizeof(struct nurrispane_senders),
           sizeof(struct nurrispane_sender));
    printf("%lu checks hold\n", checks);
    return 0;
}
