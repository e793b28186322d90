/*
 * The card's library on a Cortex-M with no operating system. The command line says what to do:
 *
 *   replay LIST      answers the logs that a list names: replay.c
 *   measure ROUNDS   the deepest stack and the most instructions of each call: measure.c
 *   unit ROUNDS      a station clock unit beside a card: unit.c
 *   overflow         takes more stack than the header promises, which has to fault
 *
 * Status: 0 done, 1 the library is not the header's or answers wrongly, 2 trouble, 3 a fault.
 */
#include "host.h"
#include "image.h"
#include "nurrispane.h"

static char line[600];
static volatile uint32_t tested;

static void call_self_test(void)
{
    tested = nurrispane_self_test();
}

/* A call that takes the whole stack and two words. */
__attribute__((naked)) static void take_more(void)
{
    __asm__ volatile("ldr r0, =%c0\n mov r1, sp\n mov r2, sp\n subs r1, r0\n mov sp, r1\n push {r1, r2}\n mov sp, r2\n bx lr" : : "i"(NURRISPANE_STACK));
}

/* Whether a line begins with a word; what follows the word and a space is at `rest`. */
static int begins(const char *word, const char **rest)
{
    const char *at = line;

    while (*word != 0) {
        if (*at++ != *word++)
            return 0;
    }
    *rest = *at == ' ' ? at + 1 : at;
    return *at == 0 || *at == ' ';
}

static uint32_t number_of(const char *text)
{
    uint32_t value = 0;

    for (; *text >= '0' && *text <= '9'; text++)
        value = value * 10 + (uint32_t)(*text - '0');
    return value;
}

int main(void)
{
    const char *rest;

    on_stack(call_self_test);
    if (!NURRISPANE_BELONGS() || tested != 1) {
        say("the library is not the header's, or fails its own test\n");
        return 1;
    }
    if (!command_line(line, sizeof line))
        return 2;
    if (begins("replay", &rest))
        return replay(rest);
    if (begins("measure", &rest))
        return measure(number_of(rest));
    if (begins("unit", &rest))
        return run_unit(number_of(rest));
    if (begins("overflow", &rest)) {
        on_stack(take_more);
        say("the stack has no guard\n");
        return 1;
    }
    say("replay LIST | measure ROUNDS | unit ROUNDS | overflow\n");
    return 2;
}
