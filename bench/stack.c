/* How much stack each call takes at its deepest, counted from the stack pointer of a function that
 * makes the call: the stack below it is painted, and the paint that is left is counted. Prints a
 * line for each call: its export, its information bits, the bytes, its name. tools/stack compares
 * them with the bounds that it finds (tests/part-outside). */
#define _XOPEN_SOURCE 600
#include "calls.h"
#include <pthread.h>
#include <stdio.h>
#include <stdlib.h>

#if defined(__x86_64__)
#define STACK_POINTER "mov %%rsp, %0"
#elif defined(__riscv)
#define STACK_POINTER "mv %0, sp"
#else
#define STACK_POINTER "mov %0, sp"
#endif
#define ROOM (1 << 20)

static unsigned char *stack;
static void (*measured)(void);
static size_t bytes;

/* runs on the lent stack; between the painting and the counting only what is measured is called */
static void *measure(void *nothing) {
    volatile unsigned char *here, *paint;
    __asm__ volatile(STACK_POINTER : "=r"(here));
    for (paint = stack; paint < here; paint++) *paint = 0x5a;
    measured();
    for (paint = stack; *paint == 0x5a; paint++) {
    }
    bytes = (size_t)(here - paint);
    return nothing;
}

static void use(void (*call)(void)) {
    pthread_attr_t attributes;
    pthread_t thread;
    measured = call;
    pthread_attr_init(&attributes);
    if (pthread_attr_setstack(&attributes, stack, ROOM) ||
        pthread_create(&thread, &attributes, measure, NULL))
        exit(1);
    pthread_join(thread, NULL);
}

int main(void) {
    if (posix_memalign((void **)&stack, 4096, ROOM) || !prepare()) return 1;
    /* both are called once before, so that no linker binds them on the stack that is measured */
    memset(stack, 0, ROOM);
    memcpy(stack, stack + ROOM / 2, ROOM / 2);
    for (size_t i = 0; i < CALLS; i++) {
        use(calls[i].make);
        if (refusal != calls[i].refusal) {
            fprintf(stderr, "%s: refused %u\n", calls[i].name, (unsigned)refusal);
            return 1;
        }
        printf("%s %u %zu %s\n", calls[i].export, (unsigned)calls[i].k, bytes, calls[i].name);
    }
    return 0;
}
