/* A frame for the tests: named cases, random numbers that are the same in every run, and buffers
 * with guards around them. */
#ifndef CHECK_H
#define CHECK_H

#include <inttypes.h>
#include <stdarg.h>
#include <stdint.h>
#include <stdio.h>
#include <string.h>

static unsigned long cases_passed, cases_failed, case_checks, case_faults;
static char case_name[128];

static inline void begin(const char *format, ...) __attribute__((format(printf, 1, 2)));

static inline void begin(const char *format, ...) {
    va_list a;
    va_start(a, format);
    vsnprintf(case_name, sizeof case_name, format, a);
    va_end(a);
    case_checks = case_faults = 0;
}

/* a case that checked nothing is a failure */
static inline void end(void) {
    if (case_checks == 0 || case_faults > 0) {
        cases_failed++;
        printf("%s: %lu of %lu checks failed\n", case_name, case_faults, case_checks);
    } else {
        cases_passed++;
    }
}

#define CHECK(fact, ...)                                                                           \
    do {                                                                                           \
        case_checks++;                                                                             \
        if (!(fact)) {                                                                             \
            if (case_faults++ < 5) {                                                               \
                printf("%s: %s:%d: %s: ", case_name, __FILE__, __LINE__, #fact);                   \
                printf(__VA_ARGS__);                                                               \
                printf("\n");                                                                      \
            }                                                                                      \
        }                                                                                          \
    } while (0)

static inline int finish(void) {
    printf("%lu passed, %lu failed\n", cases_passed, cases_failed);
    return cases_failed != 0 || cases_passed == 0;
}

static uint64_t random_state = 0x9e3779b97f4a7c15u;

static inline uint64_t random64(void) {
    random_state ^= random_state << 13;
    random_state ^= random_state >> 7;
    random_state ^= random_state << 17;
    return random_state;
}

static inline int random_below(int n) { return (int)(random64() % (uint64_t)n); }

static inline int random_between(int a, int b) { return a + random_below(b - a + 1); }

/* a reading of the rules' whole range (docs/RULES.md, §9), whatever the header says */
#define LARGEST 32767
static inline int16_t random_reading(void) { return (int16_t)random_between(-LARGEST, LARGEST); }

/* a buffer with 32 guard bytes on each side, and a copy of what it held */
#define GUARD 32
typedef struct {
    uint8_t all[GUARD + 1024 + GUARD], before[GUARD + 1024 + GUARD];
} guarded;

static inline uint8_t *contents(guarded *g) { return g->all + GUARD; }

/* fills guards and contents with arbitrary bytes and keeps a copy */
static inline void arm(guarded *g) {
    for (size_t i = 0; i < sizeof g->all; i++) g->all[i] = (uint8_t)random64();
    memcpy(g->before, g->all, sizeof g->all);
}

static inline int untouched(const guarded *g) {
    return memcmp(g->before, g->all, sizeof g->all) == 0;
}

/* nothing but the first n bytes of the contents has changed */
static inline int only_first(const guarded *g, size_t n) {
    return memcmp(g->before, g->all, GUARD) == 0 &&
           memcmp(g->before + GUARD + n, g->all + GUARD + n, sizeof g->all - GUARD - n) == 0;
}

/* how a uint64_t is printed where the C library does not say it (newlib), and how a cinorbis_size
 * is */
#ifndef PRIu64
#define PRIu64 "llu"
#endif
#if SIZE_MAX == UINT64_MAX
#define PRI_SIZE "zu"
#else
#define PRI_SIZE PRIu64
#endif

#endif
