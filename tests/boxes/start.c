/* Start-up of a test program on a Cortex-M, before that of newlib, which then reads the command
 * line and opens the standard streams by semihosting: the vectors, the FPU switched on. */
#include <stdint.h>

extern uint32_t boxes_stack_top[];
void _start(void);

/* newlib's start-up calls them */
void _init(void) {}
void _fini(void) {}

/* any fault ends the emulator with a status of its own */
static void fault(void) {
    static const uint32_t ended[2] = {0x20026, 99};
    register uint32_t r0 __asm__("r0") = 0x20;
    register const void *r1 __asm__("r1") = ended;
    __asm__ volatile("bkpt 0xAB" : : "r"(r0), "r"(r1) : "memory");
    for (;;) {
    }
}

static void start(void) {
#if defined(__ARM_FP)
    *(volatile uint32_t *)0xE000ED88u |= 0xFu << 20; /* CPACR: full access to CP10 and CP11 */
#endif
#if defined(TRAP_UNALIGNED)
    *(volatile uint32_t *)0xE000ED14u |=
        8; /* CCR.UNALIGN_TRP: as on a Cortex-M0+, which has none */
#endif
    __asm__ volatile("dsb\n\tisb" ::: "memory");
    _start();
}

__attribute__((section(".vectors"), used)) static void (*const vectors[16])(void) = {
    (void (*)(void))boxes_stack_top,
    start,
    fault,
    fault,
    fault,
    fault,
    fault,
    0,
    0,
    0,
    0,
    fault,
    fault,
    0,
    fault,
    fault};
