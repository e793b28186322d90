/* The stack that the library's calls run on: exactly what the header promises, with no memory below it. */
#include "image.h"
#include "nurrispane.h"

#define PAINT UINT32_C(0x5aa5c33c)
#define MOST (NURRISPANE_STACK > NURRISPANE_UNIT_STACK ? NURRISPANE_STACK : NURRISPANE_UNIT_STACK)
#define WORDS (MOST / 4U)

static uint32_t stack[WORDS] __attribute__((section(".stack"), aligned(8)));

/* The processor's second stack pointer is set to the top, and used while the call is made. */
__attribute__((naked, noinline)) static void call_there(void (*call)(void), uint32_t *top)
{
    (void)call;
    (void)top;
    __asm__ volatile("push {r4, lr}\n"
                     "msr psp, r1\n"
                     "mrs r4, control\n"
                     "movs r2, #2\n"
                     "orrs r2, r4\n"
                     "msr control, r2\n"
                     "isb\n"
                     "blx r0\n"
                     "msr control, r4\n"
                     "isb\n"
                     "pop {r4, pc}");
}

void on_stack(void (*call)(void))
{
    call_there(call, stack + WORDS);
}

uint32_t octets_of(void (*call)(void))
{
    volatile uint32_t *at = stack;

    for (uint32_t i = 0; i < WORDS; i++)
        at[i] = PAINT;
    on_stack(call);
    for (uint32_t i = 0; i < WORDS; i++) {
        if (at[i] != PAINT)
            return (WORDS - i) * 4U;
    }
    return 0;
}
