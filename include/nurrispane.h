/*
 * The clock selector of a timing card, for C firmware.
 *
 * The firmware holds the selector's whole state as one plain struct of arrays and makes one call for
 * each event, which changes them in place; its senders, one a port, are others, with one call for each
 * question whether a frame is to be sent. The functions with the usual names are below, `static inline`:
 * each hands the arrays to one of the library's, whose name has _in behind it. What each of these does with
 * any arrays, event, frame and buffer is proved of its code (crates/card, crates/sender); the library
 * itself is what `tools/static-library card` writes, libcard.a, and for Arm what `tools/card-for-arm`
 * does. Words and numbers are those of documents 01 and 02. docs/FIRMWARE.md says what to do at a reboot,
 * when the time jumps, in an interrupt and with two cards. The station clock unit of document 02, L13, two
 * cards with one time, is in a library of its own: "The unit", below.
 *
 *     #include "nurrispane.h"
 *     void clock_follow(uint8_t input);
 *     void clock_hold(void);
 *     void timer_at(uint64_t ms);
 *     void port_send(uint8_t port, const uint8_t *frame, size_t length);
 *     static struct nurrispane_card card;
 *     static struct nurrispane_senders senders;
 *     static uint64_t beat;
 *
 *     static void event(uint8_t kind, uint64_t ms, uint8_t input, uint16_t argument)
 *     {
 *         nurrispane_step(&card, kind, ms, input, argument, NURRISPANE_NO_FRAME, 0);
 *     }
 *     static void after_event(void)
 *     {
 *         uint64_t due = nurrispane_next_due(&card);
 *         if (nurrispane_clock_state(&card) == NURRISPANE_LOCKED) {
 *             clock_follow(nurrispane_selected(&card));
 *         } else {
 *             clock_hold();
 *         }
 *         timer_at((due < beat) ? due : beat);
 *     }
 *     int on_start(void)
 *     {
 *         int works = 0;
 *         if (NURRISPANE_BELONGS() && (nurrispane_self_test() == 1U)) {
 *             nurrispane_fresh(&card, NURRISPANE_OPTION_1, 0, 0);
 *             nurrispane_fresh_senders(&senders);
 *             event(NURRISPANE_EVENT_INPUT_KIND, 0, 3, NURRISPANE_INPUT_ETHERNET);
 *             event(NURRISPANE_EVENT_PRIORITY, 0, 3, 1);
 *             event(NURRISPANE_EVENT_WAIT, 0, 3, 0);
 *             event(NURRISPANE_EVENT_SIGNAL, 0, 3, NURRISPANE_SIGNAL_GOOD);
 *             after_event();
 *             works = 1;
 *         }
 *         return works;
 *     }
 *     void on_signal(uint64_t ms, uint8_t port, int good)
 *     {
 *         if (good != 0) {
 *             event(NURRISPANE_EVENT_SIGNAL, ms, port, NURRISPANE_SIGNAL_GOOD);
 *         } else {
 *             event(NURRISPANE_EVENT_SIGNAL, ms, port, NURRISPANE_SIGNAL_FAIL);
 *         }
 *         after_event();
 *     }
 *     void on_frame(uint64_t ms, uint8_t port, const uint8_t *frame, size_t length)
 *     {
 *         nurrispane_step(&card, NURRISPANE_EVENT_FRAME, ms, port, 0, frame, length);
 *         after_event();
 *     }
 *     void on_timer(uint64_t ms, const uint8_t source[6])
 *     {
 *         uint8_t frame[NURRISPANE_FRAME_OCTETS];
 *         beat = ms + 100U;
 *         event(NURRISPANE_EVENT_TICK, ms, 0, 0);
 *         for (uint8_t port = 0; port < NURRISPANE_INPUTS; port++) {
 *             nurrispane_ask(&senders, &card, port, ms, source, 6, frame, sizeof frame);
 *             if (senders.frame != NURRISPANE_HEARTBEAT_NOTHING) {
 *                 port_send(port, frame, sizeof frame);
 *             }
 *         }
 *         after_event();
 *     }
 *
 * A fresh input is a line, off, and its signal failing: an input that is to be followed gets its kind,
 * its priority and its signal. on_timer() is to be called at the time that timer_at() was last given: what
 * is next due, or the next look at the senders, which no event puts off.
 * tests/firmware/examples takes the lines above out, compiles them and runs them.
 *
 * What C owes
 *
 * - The card. Start from nurrispane_fresh(), and lend to each call the card that the last one left,
 *   unchanged. Then the card is the selector after those events, and all that is proved of the selector
 *   holds of it. A card is plain data with no pointer in it: copy it, keep it, send it to a standby card
 *   of the same byte order, go back to an older copy. A card that was filled in any other way is safe too:
 *   it is plain numbers and every value of them is answered for, but the answers may be wrong. Whatever
 *   came in, nurrispane_selected() and nurrispane_switch_input() are 0 to 15 or NURRISPANE_NO_INPUT, 255,
 *   after a step, nurrispane_clock_state() and nurrispane_switch_kind() 0 to 2: firmware may index by
 *   these, and by an input once it has tested that it is not NURRISPANE_NO_INPUT. A start that is refused
 *   leaves a card of noise as it was but for the number and the count; a step that is refused leaves
 *   answers in range. The version stands in the card, so that what is kept carries it.
 * - The senders. Likewise from nurrispane_fresh_senders() on, each call handing on what the last
 *   one left, unchanged but for `number` and `frame`, which no function reads. They stand beside
 *   the card and hold nothing of it: a question brings the card, and takes its state as it is. A question
 *   touches the sender of its port alone.
 * - Pointers. One to a struct may not be NULL. One to octets may where its length is 0, and
 *   NURRISPANE_NO_FRAME is there for those who want none. Each must be good for as many octets as the
 *   length says, and one to a struct for the struct; a frame for a frame event alone, as no other
 *   looks at it. Structs are aligned to 8, as C aligns
 *   them by itself; octets need no alignment. A length is 64 bits wide on every machine.
 * - Ownership. Nothing is kept after a call returns: no pointer, no static data. What is lent for
 *   writing (no pointer to const) is nobody else's during the call and overlaps nothing else that is
 *   lent. What is lent by a pointer to const is not written, so it may lie in read-only memory. Calls
 *   on different cards may run at the same time; an interrupt may make calls on a card of its own.
 * - Time. Milliseconds from any zero, below 2^48 and never falling; else the event is refused. Each
 *   event first serves, in time order, whatever became due since the last one: the end of a
 *   hold-off, of a wait or of a frame's five seconds. Send NURRISPANE_EVENT_TICK when these are to be
 *   noticed without an event, at the time that nurrispane_next_due() says; further ticks change no
 *   later answer. nurrispane_served() says how many due moments the last event's tick served: never
 *   more than 48, which bounds the time that a call takes; nurrispane_tick_part() serves fewer in a call.
 *   Before what is due an event that tells its input nothing new, or is refused, takes a small part of it.
 * - The machine. libcard.a is for x86-64 with the System V calling convention, its red zone and its
 *   SSE2 registers included; docs/BENCHMARKS.md has its size, and that of those for Arm. There and on
 *   aarch64 and armv7 it needs no more than memcpy, memmove and memset. On a Cortex-M it needs no more than
 *   these by the names of Arm's convention, __aeabi_memcpy, __aeabi_memcpy4, __aeabi_memcpy8, __aeabi_memmove,
 *   __aeabi_memclr, __aeabi_memclr4 and __aeabi_memclr8, and on a Cortex-M0+ __aeabi_lmul, which a compiler's own
 *   library has. Nothing else: no heap, no floating point, no operating system, and no data that is written. No
 *   call waits.
 *   The libraries for Cortex-M have no unaligned access and may run with the trap for it set.
 *
 * Sizes, in octets: a card 584, aligned to 8; what is known of an input 24, aligned to 8; the codes 16;
 * the words 32; a frame that was read 9; the senders 1,544, aligned to 8; one sender 96, aligned to 8; a unit
 * 1,176, aligned to 8. There is no padding in any of them, so cards and senders can be compared by memcmp()
 * and summed by a checksum.
 *
 * No call takes more stack than NURRISPANE_STACK, whatever it is lent, and below it is said by call: no
 * function calls itself or one by a pointer, and tests/firmware/stack-bounds derives the most from the
 * machine code. docs/BENCHMARKS.md has what each takes, and its instructions, by machine; tests/firmware/card
 * measures the stack anew.
 */
#ifndef NURRISPANE_H
#define NURRISPANE_H

#include <stddef.h>
#include <stdint.h>

#if defined(__cplusplus)
extern "C" {
#define NURRISPANE_HOLDS(fact) static_assert((fact), #fact)
#define NURRISPANE_ALIGNED(type, octets) static_assert(alignof(type) == (octets), #type)
#elif defined(__STDC_VERSION__) && __STDC_VERSION__ >= 201112L
#define NURRISPANE_HOLDS(fact) _Static_assert((fact), #fact)
#define NURRISPANE_ALIGNED(type, octets) _Static_assert(_Alignof(type) == (octets), #type)
#else
/* C99 has no word for it: a field of -1 bits is refused. */
#define NURRISPANE_NAME(line) NURRISPANE_PASTED(line)
#define NURRISPANE_PASTED(line) nurrispane_holds_##line
#define NURRISPANE_HOLDS(fact) struct NURRISPANE_NAME(__LINE__) { unsigned int holds : (fact) ? 1 : -1; }
#define NURRISPANE_ALIGNED(type, octets) NURRISPANE_HOLDS(offsetof(struct { char first; type then; }, then) == (octets))
#endif

/*
 * The constants are unsigned, so that they meet the fields and parameters that they stand for as MISRA C
 * wants it (10.3, 10.4); there is no enum.
 */

/* Raised with each change of a struct, of a number or of what a function answers: CHANGES.md. */
#define NURRISPANE_VERSION 6U

/* Raised with what firmware need only be linked anew for; 0 with each new version. */
#define NURRISPANE_MINOR 0U

/* Whether the library that was linked is this header's: to be asked once, at the start. */
#define NURRISPANE_BELONGS()                                         \
    ((nurrispane_version() == NURRISPANE_VERSION) &&                 \
     (nurrispane_card_octets() == sizeof(struct nurrispane_card)) && \
     (nurrispane_senders_octets() == sizeof(struct nurrispane_senders)))

/* Inputs 0 to 15 are also the outgoing ports. */
#define NURRISPANE_INPUTS 16U

/* Stands for no input in an answer. */
#define NURRISPANE_NO_INPUT 255U

/* "We write 60 octets from a lent six-octet source address" */
#define NURRISPANE_FRAME_OCTETS 60U
#define NURRISPANE_SOURCE_OCTETS 6U

/* The frame of an event that has none, with length 0. */
#ifdef __cplusplus
#define NURRISPANE_NO_FRAME (reinterpret_cast<const uint8_t *>(""))
#else
#define NURRISPANE_NO_FRAME ((const uint8_t *)"")
#endif

/* The time of what is never due. */
#define NURRISPANE_NEVER UINT64_MAX

/*
 * No call takes more stack than NURRISPANE_STACK, and each no more than is said of it, on any of the machines,
 * what it is handed and what its inline function takes included.
 */
#define NURRISPANE_STACK                3328U
#define NURRISPANE_STACK_SELF_TEST      3328U
#define NURRISPANE_STACK_FRESH          512U
#define NURRISPANE_STACK_STEP           2048U
#define NURRISPANE_STACK_TICK_PART      2048U
#define NURRISPANE_STACK_NEXT_DUE       512U
#define NURRISPANE_STACK_IS_SOUND       1792U
#define NURRISPANE_STACK_INPUT_STATUS   512U
#define NURRISPANE_STACK_OUTGOING_CODES 768U
#define NURRISPANE_STACK_OUTGOING_WORDS 512U
#define NURRISPANE_STACK_READ_FRAME     512U
#define NURRISPANE_STACK_WRITE_FRAME    768U
#define NURRISPANE_STACK_FRESH_SENDER   256U
#define NURRISPANE_STACK_ASK            768U

/*
 * The profile, chosen once, with nurrispane_fresh(). Of option II the place of PROV, 0 for none and
 * 1 to 8 for just below that quality, and the marks of the first-generation ports, bit i for port i,
 * are given with it; option I has neither.
 */
#define NURRISPANE_OPTION_1 1U
#define NURRISPANE_OPTION_2 2U

/* The kinds of input. */
#define NURRISPANE_INPUT_LINE     0U /* codes */
#define NURRISPANE_INPUT_ETHERNET 1U /* frames */
#define NURRISPANE_INPUT_WORDS    2U /* 1,544 kbit/s words: option II */

/* The argument of a signal event. In a card and in what is known of an input 1 is good, 0 failing. */
#define NURRISPANE_SIGNAL_GOOD 0U
#define NURRISPANE_SIGNAL_FAIL 1U

/* The kinds of event, with their arguments; where there are two, of option I and of option II. */
#define NURRISPANE_EVENT_SIGNAL        0x01U /* NURRISPANE_SIGNAL_GOOD, NURRISPANE_SIGNAL_FAIL */
#define NURRISPANE_EVENT_FRAME         0x02U /* 0; the frame is lent */
#define NURRISPANE_EVENT_LINE_CODE     0x03U /* 0 to 15 */
#define NURRISPANE_EVENT_PRIORITY      0x04U /* 1 to 16, 1 best; 0 off */
#define NURRISPANE_EVENT_LOCKOUT       0x05U /* 1 set, 0 clear */
#define NURRISPANE_EVENT_HOLDOFF       0x06U /* 300 to 1,800 ms */
#define NURRISPANE_EVENT_WAIT          0x07U /* 0 to 12 minutes */
#define NURRISPANE_EVENT_FIXED_QUALITY 0x08U /* 1 to 5, 1 to 10; 0 none */
#define NURRISPANE_EVENT_CLEAR_WAIT    0x09U /* 0 */
#define NURRISPANE_EVENT_FORCED        0x0aU /* 0 */
#define NURRISPANE_EVENT_MANUAL        0x0bU /* 0 */
#define NURRISPANE_EVENT_CLEAR_SWITCH  0x0cU /* 0; input 0 */
#define NURRISPANE_EVENT_QUALITY_MODE  0x0dU /* 0 off, 1 on; input 0 */
#define NURRISPANE_EVENT_SENDING       0x0eU /* 0 off, 1 on */
#define NURRISPANE_EVENT_TICK          0x0fU /* 0; input 0 */
#define NURRISPANE_EVENT_INPUT_KIND    0x10U /* NURRISPANE_INPUT_LINE, _ETHERNET; option II _WORDS too */
#define NURRISPANE_EVENT_FLOOR         0x11U /* 1 to 4, 1 to 8 */
#define NURRISPANE_EVENT_WORD          0x12U /* any; option I does not know this kind */

/*
 * The numbers of an answer. Of those that apply to an event the smallest is given. 2 to 13 leave
 * a card's state, its time included, but may make `due` anew; 14 to 17 leave what a tick at the event's time leaves. What they
 * leave of a unit's cards, nurrispane_unit_step() says. Writing a frame checks 5, 19, 18, and leaves the
 * buffer where it refuses. 1, 20 and 21 (a log that does not go back to the old form) are of programs
 * that read logs: not given here.
 */
#define NURRISPANE_ACCEPTED                      0U
#define NURRISPANE_REFUSED_LINE_MALFORMED        1U  /* not given here */
#define NURRISPANE_REFUSED_KIND_UNKNOWN          2U
#define NURRISPANE_REFUSED_TIME_TOO_LARGE        3U  /* at or above 2^48 */
#define NURRISPANE_REFUSED_TIME_BEFORE_STATE     4U  /* before that of the state */
#define NURRISPANE_REFUSED_INPUT_OUT_OF_RANGE    5U  /* above 15, also a port; not 0 for 0c, 0d, 0f */
#define NURRISPANE_REFUSED_ARGUMENT_OUT_OF_RANGE 6U  /* also of a start: option, place, minimum; also a half */
#define NURRISPANE_REFUSED_WRONG_INPUT_KIND      7U  /* code, frame or word for an input of another kind */
#define NURRISPANE_REFUSED_FRAME_LENGTH          8U  /* not 60 to 1,514 octets */
#define NURRISPANE_REFUSED_FRAME_DESTINATION     9U
#define NURRISPANE_REFUSED_FRAME_PROTOCOL        10U /* octets 13-15 */
#define NURRISPANE_REFUSED_FRAME_ORGANISATION    11U /* octets 16-20 */
#define NURRISPANE_REFUSED_FRAME_VERSION         12U
#define NURRISPANE_REFUSED_FRAME_TLV             13U /* octets 25-27 */
#define NURRISPANE_REFUSED_FORCED_BARRED         14U /* forced: input off or locked */
#define NURRISPANE_REFUSED_MANUAL_FORCED_STANDS  15U /* manual: a forced switch stands */
#define NURRISPANE_REFUSED_MANUAL_NOT_ELIGIBLE   16U /* manual: input not eligible */
#define NURRISPANE_REFUSED_MANUAL_LOWER_QUALITY  17U /* manual: an eligible input has lower quality */
#define NURRISPANE_REFUSED_BUFFER_TOO_SHORT      18U /* frame buffer under 60 octets */
#define NURRISPANE_REFUSED_SOURCE_NOT_SIX        19U /* source address not six octets */
#define NURRISPANE_REFUSED_OUTPUT_TOO_SHORT      20U /* not given here */

/* The clock states. */
#define NURRISPANE_FREE_RUN 0U
#define NURRISPANE_HOLDOVER 1U
#define NURRISPANE_LOCKED   2U

/* The operator's switch. */
#define NURRISPANE_SWITCH_NONE   0U
#define NURRISPANE_SWITCH_FORCED 1U
#define NURRISPANE_SWITCH_MANUAL 2U

/*
 * Qualities, lower is better. Option I: 1 PRC, 2 SSU-A, 3 SSU-B, 4 SEC, 5 DNU. Option II: 1 PRS, 2
 * STU, 3 ST2, 4 TNC, 5 ST3E, 6 ST3, 7 SIC, 8 ST4, 9 PROV, which ranks where it is placed, 10 DUS. In
 * both 0 is not told, and in a card 11 is invalid and 12 failed.
 */

/*
 * The selector's whole state, the answer to the last event and how many due moments its tick served, as
 * arrays: to be read by the functions below, never to be written.
 *
 * In `times`, ms, and in `words` sixteen numbers stand for a field, one of each input, and behind them what
 * stands once. times: 0 when the last recorded frame came, 16 when the present run began; 32 the time. words: 0
 * the last code or word recorded, 16 the hold-off, ms; 32 the marks. small likewise, a yes 1, a no 0: 0 the
 * quality that the last recorded frame said, 16 the quality that the last code or word to come three times in
 * a row said, 32 how often in a row the last one came, 3 for any more, 48 signal, 64 the last raw quality that
 * was not failed, 80 whether the present run is failed, 96 whether the last down or up moment was up, 112 wait,
 * minutes, 128 priority, 144 fixed quality, 160 floor, 0 the fresh one, 176 kind, 192 lockout, 208 sending; 224
 * quality mode, 225 whether the clock has been locked after some choice, 226 the switch and 227 its input, 228
 * whether an input is selected and 229 which, 230 option, 231 place.
 */
struct nurrispane_card {
    uint64_t times[33];
    uint64_t due[1];    /* nothing is due before this, ms; nurrispane_next_due() says when something is */
    uint16_t words[33];
    uint8_t small[232];
    uint8_t told[7];    /* the six bytes of an answer line; due moments that the last event's tick served */
    uint8_t version;    /* NURRISPANE_VERSION, of the start; nurrispane_is_sound() alone looks at it */
    uint8_t spare[6];   /* 0: no padding */
};

/*
 * What is known of an input. A quality has its number on paper here: in option I invalid is 6 and
 * failed 7, in option II 11 and 12. A yes is 1, a no is 0.
 */
struct nurrispane_status {
    uint64_t timer;   /* when its hold-off or its wait ends, ms; 0 where that is past */
    uint64_t frame;   /* when its last frame expires, ms; 0 where that is past, or none was heard */
    uint8_t number;   /* NURRISPANE_ACCEPTED, or NURRISPANE_REFUSED_INPUT_OUT_OF_RANGE */
    uint8_t raw;      /* raw quality */
    uint8_t passed;   /* passed quality */
    uint8_t eligible; /* may be selected */
    uint8_t signal;   /* 1 good, 0 failing */
    uint8_t priority; /* 1 to 16; 0 off */
    uint8_t locked;   /* lockout */
    uint8_t floor;    /* the floor in force, also where none was set */
};

/* The codes that go out of ports 0 to 15, each 0 to 15. */
struct nurrispane_codes {
    uint8_t codes[NURRISPANE_INPUTS];
};

/* The words that go out of ports 0 to 15. */
struct nurrispane_words {
    uint16_t words[NURRISPANE_INPUTS];
};

/* One port's sender: to be read if need be, never to be written. */
struct nurrispane_sender {
    uint64_t times[11];  /* of the last ten frames, the latest first; 10 when the last question was accepted; ms */
    uint32_t numbers[2]; /* the code of the last frame; how many frames, 10 for any more */
};

/* What a question was answered with. */
#define NURRISPANE_HEARTBEAT_NOTHING     0U
#define NURRISPANE_HEARTBEAT_INFORMATION 1U
#define NURRISPANE_HEARTBEAT_EVENT       2U

/* The senders of the sixteen ports, and the answer to the last question. */
struct nurrispane_senders {
    struct nurrispane_sender ports[NURRISPANE_INPUTS];
    uint32_t number; /* NURRISPANE_ACCEPTED, or the number of the refusal */
    uint32_t frame;  /* NURRISPANE_HEARTBEAT_NOTHING, also for a refusal, _INFORMATION or _EVENT */
};

/*
 * What a received frame says. A frame that is refused tells its number and no more: all else is 0.
 */
struct nurrispane_frame {
    uint8_t number;                           /* NURRISPANE_ACCEPTED, or the smallest of 8 to 13 */
    uint8_t code;                             /* 0 to 15 */
    uint8_t event;                            /* the event flag: 1 set, 0 not */
    uint8_t source[NURRISPANE_SOURCE_OCTETS]; /* who sent it */
};

/*
 * What the library has: it takes the arrays by themselves, so that a call is the same to every C compiler. Each
 * does what is said of the function below with the same name but for _in. nurrispane_ask_in() answers what
 * nurrispane_ask_sender() does.
 */
uint32_t nurrispane_version_in(void);
uint32_t nurrispane_card_octets_in(void);
uint32_t nurrispane_senders_octets_in(void);
uint32_t nurrispane_self_test_in(void);
void nurrispane_fresh_in(uint64_t *times, uint8_t *small, uint16_t *words, uint64_t *due, uint8_t *told,
                         uint8_t option, uint8_t place, uint16_t marks);
void nurrispane_step_in(uint64_t *times, uint8_t *small, uint16_t *words, uint64_t *due, uint8_t *told,
                        uint8_t kind, uint64_t time, uint8_t input, uint16_t argument,
                        const uint8_t *frame, uint64_t frame_length);
uint32_t nurrispane_tick_part_in(uint64_t *times, uint8_t *small, uint16_t *words, uint64_t *due,
                                 uint8_t *told, uint64_t time, uint8_t most);
uint64_t nurrispane_next_due_in(const uint64_t *times, const uint8_t *small, const uint16_t *words);
uint32_t nurrispane_is_sound_in(const uint64_t *times, const uint8_t *small, const uint16_t *words,
                                const uint64_t *due, const uint8_t *told);
void nurrispane_input_status_in(const uint64_t *times, const uint8_t *small, const uint16_t *words,
                                uint8_t input, uint64_t *ends, uint8_t *known);
void nurrispane_outgoing_codes_in(const uint64_t *times, const uint8_t *small, const uint16_t *words,
                                  uint8_t *codes);
void nurrispane_outgoing_words_in(const uint64_t *times, const uint8_t *small, const uint16_t *words,
                                  uint16_t *out);
void nurrispane_read_frame_in(const uint8_t *frame, uint64_t frame_length, uint8_t *told);
uint32_t nurrispane_write_frame_in(const uint64_t *times, const uint8_t *small, const uint16_t *words,
                                   uint8_t port, uint8_t event, const uint8_t *source,
                                   uint64_t source_length, uint8_t *buffer, uint64_t buffer_length);
void nurrispane_fresh_sender_in(uint64_t *sender_times, uint32_t *sender_numbers);
uint32_t nurrispane_ask_in(uint64_t *sender_times, uint32_t *sender_numbers, const uint64_t *times,
                           const uint8_t *small, const uint16_t *words, uint8_t port, uint64_t time,
                           const uint8_t *source, uint64_t source_length, uint8_t *buffer,
                           uint64_t buffer_length);

/* The library's version, and how many octets it takes a card and the senders to have. */
static inline uint32_t nurrispane_version(void)
{
    return nurrispane_version_in();
}

static inline uint32_t nurrispane_card_octets(void)
{
    return nurrispane_card_octets_in();
}

static inline uint32_t nurrispane_senders_octets(void)
{
    return nurrispane_senders_octets_in();
}

/*
 * The answer to the last event. Its number: NURRISPANE_ACCEPTED, or that of the refusal. The selected
 * input, or NURRISPANE_NO_INPUT. The clock state: NURRISPANE_FREE_RUN, _HOLDOVER or _LOCKED. The clock quality:
 * 1 to 4, in option II 1 to 9; 0 with quality mode off. The switch: NURRISPANE_SWITCH_NONE, _FORCED or _MANUAL;
 * its input, or NURRISPANE_NO_INPUT.
 */
static inline uint8_t nurrispane_number(const struct nurrispane_card *card)
{
    return card->told[0];
}

static inline uint8_t nurrispane_selected(const struct nurrispane_card *card)
{
    return card->told[1];
}

static inline uint8_t nurrispane_clock_state(const struct nurrispane_card *card)
{
    return card->told[2];
}

static inline uint8_t nurrispane_clock_quality(const struct nurrispane_card *card)
{
    return card->told[3];
}

static inline uint8_t nurrispane_switch_kind(const struct nurrispane_card *card)
{
    return card->told[4];
}

static inline uint8_t nurrispane_switch_input(const struct nurrispane_card *card)
{
    return card->told[5];
}

/* How many due moments the last event's tick served: 0 to 48. */
static inline uint8_t nurrispane_served(const struct nurrispane_card *card)
{
    return card->told[6];
}

/* The card's time: that of the last event not refused with 2 to 13, in a unit that passed it, ms. */
static inline uint64_t nurrispane_time(const struct nurrispane_card *card)
{
    return card->times[32];
}

/* The profile: NURRISPANE_OPTION_1 or _2; the place of PROV and the marks, 0 in option I. */
static inline uint8_t nurrispane_option(const struct nurrispane_card *card)
{
    return card->small[230];
}

static inline uint8_t nurrispane_place(const struct nurrispane_card *card)
{
    return card->small[231];
}

static inline uint16_t nurrispane_marks(const struct nurrispane_card *card)
{
    return card->words[32];
}

/*
 * A test for power-on, on a card of its own, by the function that nurrispane_step() calls: the eleven events
 * of document 01's whole replay; then a frame of 59 octets, which is refused with 8, one of 60 that tells PRC,
 * which is followed, and one that tells code 0000, which is invalid. Answers 1 if each was answered as it has
 * to be, otherwise 0.
 *
 * It is proved that the code answers 1. So a 0 tells that the machine did not do what the code says:
 * its processor, its memory or the copy of the library in it is broken, or the compiler that made it.
 * It does not tell which; and a 1 does not tell that nothing is broken, only that these eighteen steps
 * went right. It looks at none of the firmware's cards: nurrispane_is_sound() is for those.
 */
static inline uint32_t nurrispane_self_test(void)
{
    return nurrispane_self_test_in();
}

/*
 * Starts a card with a profile: it is fresh then, whatever it held: time 0, quality mode on, no
 * switch, nothing selected; each input a line with priority 0, hold-off 300 ms, wait 5 minutes,
 * sending on, its signal failing. Its answer is that of an accepted event on such a state: 00 ff 00
 * 04 00 ff, in option II 00 ff 00 06 00 ff. `option` is NURRISPANE_OPTION_1, for which `place` and
 * `marks` are not looked at, or NURRISPANE_OPTION_2. Any other option, and option II with a place above
 * 8, is refused and nothing starts: the card stays as it was, but for the number of its answer, which is
 * NURRISPANE_REFUSED_ARGUMENT_OUT_OF_RANGE, and what it served, 0. A start puts NURRISPANE_VERSION into the card.
 */
static inline void nurrispane_fresh(struct nurrispane_card *card, uint8_t option, uint8_t place,
                                    uint16_t marks)
{
    nurrispane_fresh_in(card->times, card->small, card->words, card->due, card->told, option, place,
                        marks);
    if (card->told[0] == NURRISPANE_ACCEPTED) {
        card->version = NURRISPANE_VERSION;
        for (unsigned int at = 0; at < sizeof card->spare; at++) {
            card->spare[at] = 0;
        }
    }
}

/*
 * One event: `*card` becomes the card after it, with its answer, also where it is refused. `kind`,
 * `time`, `input` and `argument` may be any numbers. `frame` is looked at for
 * NURRISPANE_EVENT_FRAME alone: the received frame from its destination address on, without FCS. Of a
 * refused event nurrispane_number() is the number; the five other values of the answer are always
 * those of the card as it is left.
 */
static inline void nurrispane_step(struct nurrispane_card *card, uint8_t kind, uint64_t time,
                                   uint8_t input, uint16_t argument, const uint8_t *frame,
                                   uint64_t frame_length)
{
    nurrispane_step_in(card->times, card->small, card->words, card->due, card->told, kind, time, input,
                       argument, frame, frame_length);
}

/*
 * A tick in portions, where firmware can't wait for 48 due moments in one call: serves at most `most` of
 * those up to a time, 0 as 1, each by a tick at its own time. Answers 1 where more are to come: call again with
 * the same time. Where none is left it makes the tick at that time too, and answers 0; an event at that time then
 * finds nothing to serve. The state and the answer are those that the tick made at once leaves, but for the
 * count: nurrispane_served() is that of the last tick which was made, 1 or 0. A time at or above 2^48 or before the
 * card's serves nothing and is refused as of a tick: 0.
 */
static inline uint32_t nurrispane_tick_part(struct nurrispane_card *card, uint64_t time, uint8_t most)
{
    return nurrispane_tick_part_in(card->times, card->small, card->words, card->due, card->told, time,
                                   most);
}

/*
 * When something is next due: the end of a hold-off, of a wait or of a frame's five seconds. Later
 * than the card's time; NURRISPANE_NEVER where nothing is, if no event comes. Until then a tick
 * changes no answer, no outgoing code and no word, so firmware may sleep that long. A time at or above 2^48
 * cannot be reached by a tick.
 */
static inline uint64_t nurrispane_next_due(const struct nurrispane_card *card)
{
    return nurrispane_next_due_in(card->times, card->small, card->words);
}

/*
 * Whether a card that was kept or sent can be one that nurrispane_fresh() and events lead to, as far
 * as is looked: 1 where its version is NURRISPANE_VERSION and `spare` is 0; its time is below 2^48, and a tick
 * at that time leaves its runs, its switch, its selection and whether the clock has been locked; `due` is
 * after that time and not after what is next due; and its answer is that of its state but for the number,
 * which may be any, as what it served may. Otherwise 0: the card of another version is no card. Every card that
 * a start and events lead to passes, and the answer in a card that passes is in range: nurrispane_selected()
 * and nurrispane_switch_input() 0 to 15 or 255, nurrispane_clock_state() and nurrispane_switch_kind() 0 to 2. It is
 * no checksum: a time, a setting or a quality that is another number than it was may pass, and so may a number
 * that stands for the same, as any but 0 does for a yes.
 */
static inline uint32_t nurrispane_is_sound(const struct nurrispane_card *card)
{
    uint32_t sound = 0;
    uint8_t spare = 0;
    for (unsigned int at = 0; at < sizeof card->spare; at++) {
        spare |= card->spare[at];
    }
    if ((card->version == NURRISPANE_VERSION) && (spare == 0U)) {
        sound = nurrispane_is_sound_in(card->times, card->small, card->words, card->due, card->told);
    }
    return sound;
}

/*
 * What is known of an input at the card's time; `*status` is written, whatever it held. The timer is
 * the hold-off where raw quality is failed and otherwise the wait, from the start of the present run
 * on, needed or not: so a wait keeps the input from being passed where `raw` is not failed, `passed`
 * is and `timer` is not 0; and a hold-off still passes the old quality where `raw` is failed and
 * `passed` is not. An input above 15 is told with NURRISPANE_REFUSED_INPUT_OUT_OF_RANGE in `number`,
 * and all else is 0. Whatever card came in, `eligible`, `signal` and `locked` are 0 or 1; `raw` and
 * `passed` are 0 to 7, in option II 0 to 12, on a card that came from a fresh one.
 */
static inline void nurrispane_input_status(const struct nurrispane_card *card, uint8_t input,
                                           struct nurrispane_status *status)
{
    uint64_t ends[2];
    uint8_t known[8];
    nurrispane_input_status_in(card->times, card->small, card->words, input, ends, known);
    status->timer = ends[0];
    status->frame = ends[1];
    status->number = known[0];
    status->raw = known[1];
    status->passed = known[2];
    status->eligible = known[3];
    status->signal = known[4];
    status->priority = known[5];
    status->locked = known[6];
    status->floor = known[7];
}

/*
 * The codes that go out of the sixteen ports, for lines as well as for frames: 15, do not use, if
 * quality mode is off, if the port's sending is off, or if it is the selected input; otherwise the
 * code of the clock quality. Of option II a port that is marked sends TNC and ST3E as 10, the code of
 * ST3; ST4 has no code, and 15 goes out.
 */
static inline void nurrispane_outgoing_codes(const struct nurrispane_card *card,
                                             struct nurrispane_codes *codes)
{
    nurrispane_outgoing_codes_in(card->times, card->small, card->words, codes->codes);
}

/*
 * The 1,544 kbit/s words that go out of the sixteen ports of a card of option II, beside the codes:
 * 0x08ff, which a receiver reads as STU, if the port's sending is off; otherwise 0x30ff, do not use,
 * if quality mode is off or if it is the selected input; otherwise the word of the clock quality, and
 * of a port that is marked 0x10ff for TNC and ST3E. Option I has no words: of such a card the answer
 * is what its numbers would say in option II, and is not to be sent.
 */
static inline void nurrispane_outgoing_words(const struct nurrispane_card *card,
                                             struct nurrispane_words *words)
{
    nurrispane_outgoing_words_in(card->times, card->small, card->words, words->words);
}

/*
 * Reads a received frame, from its destination address on, without FCS, for whoever wants to know
 * who sent it. A step reads the frame that it is lent by itself, and records its code alone.
 */
static inline void nurrispane_read_frame(const uint8_t *frame, uint64_t frame_length,
                                         struct nurrispane_frame *told)
{
    uint8_t nine[9];
    nurrispane_read_frame_in(frame, frame_length, nine);
    told->number = nine[0];
    told->code = nine[1];
    told->event = nine[2];
    for (unsigned int at = 0; at < NURRISPANE_SOURCE_OCTETS; at++) {
        told->source[at] = nine[at + 3U];
    }
}

/*
 * Writes the ESMC frame that tells `port`'s outgoing code into the first 60 octets of `buffer`,
 * without FCS; what is in the buffer past these stays. `event` is the frame's event flag: 0 no, any
 * other yes. Answers NURRISPANE_ACCEPTED; or, in this order, and the buffer stays as it was:
 * NURRISPANE_REFUSED_INPUT_OUT_OF_RANGE for a port above 15, NURRISPANE_REFUSED_SOURCE_NOT_SIX,
 * NURRISPANE_REFUSED_BUFFER_TOO_SHORT.
 */
static inline uint32_t nurrispane_write_frame(const struct nurrispane_card *card, uint8_t port,
                                              uint8_t event, const uint8_t *source,
                                              uint64_t source_length, uint8_t *buffer,
                                              uint64_t buffer_length)
{
    return nurrispane_write_frame_in(card->times, card->small, card->words, port, event, source,
                                     source_length, buffer, buffer_length);
}

/* Makes a sender fresh, whatever it held: nothing sent, nothing asked. */
static inline void nurrispane_fresh_sender(struct nurrispane_sender *sender)
{
    nurrispane_fresh_sender_in(sender->times, sender->numbers);
}

/* Makes the senders fresh, whatever they held: nothing sent, nothing asked, no frame answered. */
static inline void nurrispane_fresh_senders(struct nurrispane_senders *senders)
{
    for (unsigned int port = 0; port < NURRISPANE_INPUTS; port++) {
        nurrispane_fresh_sender(&senders->ports[port]);
    }
    senders->number = NURRISPANE_ACCEPTED;
    senders->frame = NURRISPANE_HEARTBEAT_NOTHING;
}

/*
 * Asks one sender, that of `port`, as nurrispane_ask() does, for firmware that holds no more senders than it has
 * ports. Answers NURRISPANE_HEARTBEAT_NOTHING, _INFORMATION or _EVENT; or 256 times the number of a refusal, and
 * then sender and buffer stay as they were.
 */
static inline uint32_t nurrispane_ask_sender(struct nurrispane_sender *sender,
                                             const struct nurrispane_card *card, uint8_t port,
                                             uint64_t time, const uint8_t *source,
                                             uint64_t source_length, uint8_t *buffer,
                                             uint64_t buffer_length)
{
    return nurrispane_ask_in(sender->times, sender->numbers, card->times, card->small, card->words, port,
                             time, source, source_length, buffer, buffer_length);
}

/*
 * Asks `port`'s sender at a time whether a frame is to be sent, with the card as it stands; the
 * time need not be the card's. An information frame the first time; an event frame when the port's
 * outgoing code differs from that of its last frame; otherwise an information frame when 1,000 ms
 * or more have passed since its last frame; and nothing while ten of its frames are less than 1,000
 * ms old. `senders->frame` says which. A frame stands in the first 60 octets of `buffer`, as
 * nurrispane_write_frame() has it, and what is past these stays; otherwise the buffer stays as it
 * was. Each port has its own sender, which no question to another port touches.
 *
 * Refused, due or not, with the smallest of these in `senders->number`, and then sender and buffer
 * stay as they were: NURRISPANE_REFUSED_TIME_TOO_LARGE, NURRISPANE_REFUSED_TIME_BEFORE_STATE for a
 * time earlier than the port's last question that was not refused,
 * NURRISPANE_REFUSED_INPUT_OUT_OF_RANGE for a port above 15, NURRISPANE_REFUSED_BUFFER_TOO_SHORT,
 * NURRISPANE_REFUSED_SOURCE_NOT_SIX.
 */
static inline void nurrispane_ask(struct nurrispane_senders *senders,
                                  const struct nurrispane_card *card, uint8_t port, uint64_t time,
                                  const uint8_t *source, uint64_t source_length, uint8_t *buffer,
                                  uint64_t buffer_length)
{
    const uint8_t of = (port < NURRISPANE_INPUTS) ? port : 0U;
    const uint32_t said = nurrispane_ask_sender(&senders->ports[of], card, port, time, source,
                                                source_length, buffer, buffer_length);
    senders->number = said / 256U;
    senders->frame = said % 256U;
}

/*
 * ---- The unit
 *
 * The station clock unit: two selectors of one profile, one for the equipment clock and one for the
 * 2 Mbit/s station output, which squelches; crates/unit and crates/unitcard. Its four functions are
 * in libunitcard.a, what `tools/static-library unitcard` writes, and for Arm `tools/card-for-arm unitcard`; all
 * others are in libcard.a: firmware with a unit links both, and neither has a name that the other has.
 * It needs no other functions than the card's.
 *
 * What C owes is what it owes of a card, of the unit as a whole: start from nurrispane_unit_fresh(),
 * and lend to each call the unit that the last one left, unchanged. Then
 * it is the unit after those events, and all that is proved of the unit holds of it. The other calls on
 * a card that only read it may be made on either card of a unit, as on
 * nurrispane_next_due(&unit.station); no event may be sent to one by nurrispane_step(), nor a part of a tick,
 * which the other would not get. A unit that was filled in any other way is safe: whatever came in,
 * nurrispane_unit_source() and the inputs in both answers are 0 to 15 or 255 after a step,
 * nurrispane_unit_squelched() 0 or 1.
 */

/* The halves of a unit, by the number that nurrispane_unit_step() takes. */
#define NURRISPANE_EQUIPMENT 0U
#define NURRISPANE_STATION   1U

/*
 * The unit. No due moments are counted: nurrispane_served() is 0 of both cards. `due` in each is what
 * nurrispane_next_due() says of it.
 */
struct nurrispane_unit {
    struct nurrispane_card equipment; /* the selector of the equipment clock */
    struct nurrispane_card station;   /* that of the station output */
    uint8_t sent[3];                  /* the minimum, whether the station output squelches, its source */
    uint8_t spare[5];                 /* 0: no padding */
};

/* Whether the libraries that were linked are this header's, that of the unit too. */
#define NURRISPANE_UNIT_BELONGS()                                                  \
    (NURRISPANE_BELONGS() && (nurrispane_unit_version() == NURRISPANE_VERSION) &&  \
     (nurrispane_unit_octets() == sizeof(struct nurrispane_unit)))

/* No call on a unit takes more stack than NURRISPANE_UNIT_STACK, and each no more than is said of it. */
#define NURRISPANE_UNIT_STACK       2048U
#define NURRISPANE_STACK_UNIT_FRESH 768U
#define NURRISPANE_STACK_UNIT_STEP  2048U

/* What the library has; as above. The first five arrays are the equipment's, the next five the station's. */
uint32_t nurrispane_unit_version_in(void);
uint32_t nurrispane_unit_octets_in(void);
void nurrispane_unit_fresh_in(uint64_t *times, uint8_t *small, uint16_t *words, uint64_t *due,
                              uint8_t *told, uint64_t *station_times, uint8_t *station_small,
                              uint16_t *station_words, uint64_t *station_due, uint8_t *station_told,
                              uint8_t *sent, uint8_t option, uint8_t place, uint16_t marks,
                              uint8_t minimum);
void nurrispane_unit_step_in(uint64_t *times, uint8_t *small, uint16_t *words, uint64_t *due,
                             uint8_t *told, uint64_t *station_times, uint8_t *station_small,
                             uint16_t *station_words, uint64_t *station_due, uint8_t *station_told,
                             uint8_t *sent, uint8_t half, uint8_t kind, uint64_t time, uint8_t input,
                             uint16_t argument, const uint8_t *frame, uint64_t frame_length);

/* The version of the unit's library, and how many octets it takes a unit to have. */
static inline uint32_t nurrispane_unit_version(void)
{
    return nurrispane_unit_version_in();
}

static inline uint32_t nurrispane_unit_octets(void)
{
    return nurrispane_unit_octets_in();
}

/*
 * The worst quality that the station output carries. 1 where that output squelches, which is to send AIS, 0
 * where not. Its source: the selected input; squelched, NURRISPANE_NO_INPUT.
 */
static inline uint8_t nurrispane_unit_minimum(const struct nurrispane_unit *unit)
{
    return unit->sent[0];
}

static inline uint8_t nurrispane_unit_squelched(const struct nurrispane_unit *unit)
{
    return unit->sent[1];
}

static inline uint8_t nurrispane_unit_source(const struct nurrispane_unit *unit)
{
    return unit->sent[2];
}

/*
 * Starts a unit with a profile, as nurrispane_fresh() does a card, and a minimum of the station output:
 * 1 to 4, in option II 1 to 8. Both cards are fresh then, whatever they held, and the output squelches.
 * Another minimum, another option than 1 or 2, or option II with a place above 8, is refused and nothing
 * starts: the unit stays as it was, but for the number of both answers, which is
 * NURRISPANE_REFUSED_ARGUMENT_OUT_OF_RANGE, and what they served, 0.
 */
static inline void nurrispane_unit_fresh(struct nurrispane_unit *unit, uint8_t option, uint8_t place,
                                         uint16_t marks, uint8_t minimum)
{
    nurrispane_unit_fresh_in(unit->equipment.times, unit->equipment.small, unit->equipment.words,
                             unit->equipment.due, unit->equipment.told, unit->station.times,
                             unit->station.small, unit->station.words, unit->station.due,
                             unit->station.told, unit->sent, option, place, marks, minimum);
    if (unit->station.told[0] == NURRISPANE_ACCEPTED) {
        unit->equipment.version = NURRISPANE_VERSION;
        unit->station.version = NURRISPANE_VERSION;
        for (unsigned int at = 0; at < sizeof unit->station.spare; at++) {
            unit->equipment.spare[at] = 0;
            unit->station.spare[at] = 0;
        }
        for (unsigned int at = 0; at < sizeof unit->spare; at++) {
            unit->spare[at] = 0;
        }
    }
}

/*
 * One event: `*unit` becomes the unit after it, with an answer of each selector. Reports (signal, frame,
 * line code and, in option II, word), input kinds and ticks go to both, whichever `half` says. Any other
 * event, an unknown kind too, is a command and goes to the one that `half` says, NURRISPANE_EQUIPMENT or
 * NURRISPANE_STATION; to the other it is a tick of that time, and answered as one. Any other number for a
 * half is refused whatever the event is: both answers have NURRISPANE_REFUSED_ARGUMENT_OUT_OF_RANGE, and
 * the unit, its time too, is as it was.
 * The time is held against the unit's; an event whose time passes first ticks both, so a refusal with 2
 * or 5 to 17 leaves what that tick leaves. The numbers and the frame are as in nurrispane_step().
 *
 * The station output squelches where nothing usable is selected by the station's selector and, quality
 * mode of that selector on, where the selected input's passed quality is worse than the minimum.
 */
static inline void nurrispane_unit_step(struct nurrispane_unit *unit, uint8_t half, uint8_t kind,
                                        uint64_t time, uint8_t input, uint16_t argument,
                                        const uint8_t *frame, uint64_t frame_length)
{
    nurrispane_unit_step_in(unit->equipment.times, unit->equipment.small, unit->equipment.words,
                            unit->equipment.due, unit->equipment.told, unit->station.times,
                            unit->station.small, unit->station.words, unit->station.due,
                            unit->station.told, unit->sent, half, kind, time, input, argument, frame,
                            frame_length);
}

/* The layout that the library was built with. */
NURRISPANE_HOLDS(sizeof(struct nurrispane_card) == 584U);
NURRISPANE_HOLDS(offsetof(struct nurrispane_card, times) == 0U);
NURRISPANE_HOLDS(offsetof(struct nurrispane_card, due) == 264U);
NURRISPANE_HOLDS(offsetof(struct nurrispane_card, words) == 272U);
NURRISPANE_HOLDS(offsetof(struct nurrispane_card, small) == 338U);
NURRISPANE_HOLDS(offsetof(struct nurrispane_card, told) == 570U);
NURRISPANE_HOLDS(offsetof(struct nurrispane_card, version) == 577U);
NURRISPANE_HOLDS(offsetof(struct nurrispane_card, spare) == 578U);
NURRISPANE_ALIGNED(struct nurrispane_card, 8U);
NURRISPANE_HOLDS(sizeof(struct nurrispane_status) == 24U);
NURRISPANE_HOLDS(offsetof(struct nurrispane_status, timer) == 0U);
NURRISPANE_HOLDS(offsetof(struct nurrispane_status, frame) == 8U);
NURRISPANE_HOLDS(offsetof(struct nurrispane_status, number) == 16U);
NURRISPANE_HOLDS(offsetof(struct nurrispane_status, raw) == 17U);
NURRISPANE_HOLDS(offsetof(struct nurrispane_status, passed) == 18U);
NURRISPANE_HOLDS(offsetof(struct nurrispane_status, eligible) == 19U);
NURRISPANE_HOLDS(offsetof(struct nurrispane_status, signal) == 20U);
NURRISPANE_HOLDS(offsetof(struct nurrispane_status, priority) == 21U);
NURRISPANE_HOLDS(offsetof(struct nurrispane_status, locked) == 22U);
NURRISPANE_HOLDS(offsetof(struct nurrispane_status, floor) == 23U);
NURRISPANE_ALIGNED(struct nurrispane_status, 8U);
NURRISPANE_HOLDS(sizeof(struct nurrispane_codes) == 16U);
NURRISPANE_HOLDS(sizeof(struct nurrispane_words) == 32U);
NURRISPANE_HOLDS(sizeof(struct nurrispane_frame) == 9U);
NURRISPANE_HOLDS(offsetof(struct nurrispane_frame, number) == 0U);
NURRISPANE_HOLDS(offsetof(struct nurrispane_frame, code) == 1U);
NURRISPANE_HOLDS(offsetof(struct nurrispane_frame, event) == 2U);
NURRISPANE_HOLDS(offsetof(struct nurrispane_frame, source) == 3U);
NURRISPANE_HOLDS(sizeof(struct nurrispane_sender) == 96U);
NURRISPANE_HOLDS(offsetof(struct nurrispane_sender, times) == 0U);
NURRISPANE_HOLDS(offsetof(struct nurrispane_sender, numbers) == 88U);
NURRISPANE_ALIGNED(struct nurrispane_sender, 8U);
NURRISPANE_HOLDS(sizeof(struct nurrispane_senders) == 1544U);
NURRISPANE_HOLDS(offsetof(struct nurrispane_senders, ports) == 0U);
NURRISPANE_HOLDS(offsetof(struct nurrispane_senders, number) == 1536U);
NURRISPANE_HOLDS(offsetof(struct nurrispane_senders, frame) == 1540U);
NURRISPANE_ALIGNED(struct nurrispane_senders, 8U);
NURRISPANE_HOLDS(sizeof(struct nurrispane_unit) == 1176U);
NURRISPANE_HOLDS(offsetof(struct nurrispane_unit, equipment) == 0U);
NURRISPANE_HOLDS(offsetof(struct nurrispane_unit, station) == 584U);
NURRISPANE_HOLDS(offsetof(struct nurrispane_unit, sent) == 1168U);
NURRISPANE_HOLDS(offsetof(struct nurrispane_unit, spare) == 1171U);
NURRISPANE_ALIGNED(struct nurrispane_unit, 8U);

#undef NURRISPANE_HOLDS
#undef NURRISPANE_ALIGNED
#undef NURRISPANE_NAME
#undef NURRISPANE_PASTED
#ifdef __cplusplus
}
#endif
#endif
