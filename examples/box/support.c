/* Text and the end by semihosting, and memcpy and memset, which the archive and the compiler ask
 * for. */
#include "box.h"

static void ask(uint32_t what, const void *with) {
#if defined(__riscv)
    register uint32_t a0 __asm__("a0") = what;
    register const void *a1 __asm__("a1") = with;
    __asm__ volatile(".balign 16\n\t.option push\n\t.option norvc\n\t"
                     "slli x0, x0, 0x1f\n\tebreak\n\tsrai x0, x0, 7\n\t.option pop"
                     : "+r"(a0)
                     : "r"(a1)
                     : "memory");
#else
    register uint32_t r0 __asm__("r0") = what;
    register const void *r1 __asm__("r1") = with;
    __asm__ volatile("bkpt 0xAB" : "+r"(r0) : "r"(r1) : "memory");
#endif
}

void say(const char *text) { ask(0x04, text); }

void say_number(uint32_t number) {
    char text[11], *at = text + 10;
    *at = 0;
    do *--at = (char)('0' + number % 10);
    while (number /= 10);
    say(at);
}

void box_exit(int status) {
    const uint32_t ended[2] = {0x20026 /* the application has ended */, (uint32_t)status};
    ask(0x20, ended);
    for (;;) {
    }
}

/* gcc must not turn these loops into calls of the functions themselves */
#define PLAIN __attribute__((optimize("no-tree-loop-distribute-patterns")))
typedef uint32_t __attribute__((may_alias)) four;

PLAIN void *memcpy(void *to, const void *from, size_t n) {
    uint8_t *t = to;
    const uint8_t *f = from;
    if (((uintptr_t)t | (uintptr_t)f) % 4 == 0)
        for (; n >= 4; n -= 4, t += 4, f += 4) *(four *)t = *(const four *)f;
    while (n--) *t++ = *f++;
    return to;
}

PLAIN void *memset(void *to, int byte, size_t n) {
    uint8_t *t = to;
    if ((uintptr_t)t % 4 == 0)
        for (; n >= 4; n -= 4, t += 4) *(four *)t = 0x01010101u * (uint8_t)byte;
    while (n--) *t++ = (uint8_t)byte;
    return to;
}
