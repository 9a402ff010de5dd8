/* What the bench programs share: random numbers, the same in every run, and the processor time that
 * was used. */
#ifndef DRAW_H
#define DRAW_H
#define _POSIX_C_SOURCE 199309L
#include <stdint.h>
#include <time.h>

static inline uint64_t random64(void) {
    static uint64_t state = 0x2545f4914f6cdd1du;
    state ^= state << 13;
    state ^= state >> 7;
    state ^= state << 17;
    return state;
}

/* a normal number from twelve uniform ones */
static inline double normal(void) {
    double s = -6;
    for (int i = 0; i < 12; i++) s += (double)(random64() >> 11) / 9007199254740992.0;
    return s;
}

/* in nanoseconds */
static inline double now(void) {
    struct timespec t;
    clock_gettime(CLOCK_PROCESS_CPUTIME_ID, &t);
    return (double)t.tv_sec * 1e9 + (double)t.tv_nsec;
}

#endif
