/* Vectors, reset and faults. */
#include "host.h"
#include "memory.h"

extern uint32_t stack_low[], own_stack_top[], data_start[], data_end[], data_from[], bss_start[], bss_end[];

typedef void (*handler)(void);

int main(void);
void reset(void);
void fault(void);
void faulted(const uint32_t *pushed);

/* The last but one is of the operating system's timer, which counts here and interrupts nobody. */
__attribute__((section(".vectors"), used)) static const struct {
    uint32_t *stack;
    handler handlers[15];
} vectors = {own_stack_top, {reset, fault, fault, fault, fault, fault, fault, 0, 0, 0, fault, fault, 0, fault, fault}};

#define CCR (*(volatile uint32_t *)0xe000ed14)   /* configuration and control */
#define UNALIGN_TRP UINT32_C(8)                  /* an unaligned access faults */
#define CPACR (*(volatile uint32_t *)0xe000ed88) /* who may use the floating-point unit */
#define MPU_CTRL (*(volatile uint32_t *)0xe000ed94)
#define MPU_RBAR (*(volatile uint32_t *)0xe000ed9c)
#define MPU_RASR (*(volatile uint32_t *)0xe000eda0)
#define GUARD_OCTETS UINT32_C(0x8000)
#define VALID_REGION_0 UINT32_C(0x10)
#define NO_ACCESS_32_KIB UINT32_C(0x1000001d)
#define ENABLED_WITH_BACKGROUND UINT32_C(5)
#define CFSR (*(volatile uint32_t *)0xe000ed28)  /* why it faulted */
#define MMFAR (*(volatile uint32_t *)0xe000ed34) /* at which address, where that is protected */
#define BFAR (*(volatile uint32_t *)0xe000ed38)  /* at which, where there is nothing */

/*
 * The guard under the stack that the library's calls run on. A Cortex-M33's stack pointer has a limit; the others get a region of the memory
 * protection unit, the 32 KiB below the stack, that nobody may touch.
 */
static void set_guard(void)
{
#ifdef __ARM_ARCH_8M_MAIN__
    __asm__ volatile("msr psplim, %0" : : "r"(stack_low));
#else
    MPU_RBAR = ((uint32_t)stack_low - GUARD_OCTETS) | VALID_REGION_0;
    MPU_RASR = NO_ACCESS_32_KIB;
    MPU_CTRL = ENABLED_WITH_BACKGROUND;
    __asm__ volatile("dsb\n isb");
#endif
}

void reset(void)
{
#ifdef __ARM_FP /* -mfloat-abi=hard: the compiler may use the unit's registers from here on */
    CPACR |= UINT32_C(0xf00000);
    __asm__ volatile("dsb\n isb");
#endif
    CCR |= UNALIGN_TRP;
    set_guard();
    memcpy(data_start, data_from, (size_t)((char *)data_end - (char *)data_start));
    memset(bss_start, 0, (size_t)((char *)bss_end - (char *)bss_start));
    stop(main());
}

/* A fault tells where and why, and ends the image with status 3. */
void faulted(const uint32_t *pushed)
{
    (void)pushed;
    say("fault: cause ");
    say_hex(CFSR);
    say(", address ");
    say_hex(CFSR & UINT32_C(0x80) ? MMFAR : BFAR);
    say("\n");
    stop(3);
}

/* What was pushed may lie on a stack that is full: it is not looked at, and the image's own is the handler's. */
__attribute__((naked)) void fault(void)
{
    __asm__ volatile("ldr r0, =own_stack_top\n mov sp, r0\n mrs r0, psp\n ldr r1, =faulted\n bx r1");
}
