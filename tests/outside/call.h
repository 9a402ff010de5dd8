/* The library's calls with the refusal and the numbers of an answer in one value, as the tests
 * compare them. The numbers hold arbitrary bytes before each call, so that one that is not written
 * shows. */
#ifndef CALL_H
#define CALL_H

#include "../../include/cinorbis.h"
#include <string.h>

typedef struct {
    uint32_t refusal, penalty, gap, visits, place;
} answer;

/* no number of an answer reaches 2^32 here; one that does shows as the largest */
static inline uint32_t narrow(uint64_t x) { return x < UINT32_MAX ? (uint32_t)x : UINT32_MAX; }

static inline answer joined(uint32_t refusal, cinorbis_numbers n) {
    answer a = {refusal, narrow(n.penalty), narrow(n.gap), narrow(n.visits), narrow(n.place)};
    return a;
}

#define CALL(name, ...)                                                                            \
    cinorbis_numbers n;                                                                            \
    memset(&n, 0xA5, sizeof n);                                                                    \
    uint32_t refusal = name(__VA_ARGS__, &n);                                                      \
    return joined(refusal, n)

static inline answer encode(uint32_t r, uint32_t m, const uint8_t *bits, size_t k, uint8_t *word,
                            size_t w) {
    CALL(cinorbis_encode, r, m, bits, k, word, w);
}

static inline answer inverse(uint32_t r, uint32_t m, const uint8_t *word, size_t w, uint8_t *bits,
                             size_t k) {
    CALL(cinorbis_inverse, r, m, word, w, bits, k);
}

static inline answer quick(uint32_t r, uint32_t m, const int16_t *l, size_t n_, uint8_t *bits,
                           size_t k, uint8_t *word, size_t w) {
    CALL(cinorbis_quick, r, m, l, n_, bits, k, word, w);
}

static inline answer early(uint32_t r, uint32_t m, const int16_t *l, size_t n_, uint8_t *bits,
                           size_t k, uint8_t *word, size_t w) {
    CALL(cinorbis_early, r, m, l, n_, bits, k, word, w);
}

static inline answer early_within(uint32_t r, uint32_t m, uint32_t allowed, const int16_t *l,
                                  size_t n_, uint8_t *bits, size_t k, uint8_t *word, size_t w) {
    CALL(cinorbis_early_within, r, m, allowed, l, n_, bits, k, word, w);
}

/* the searches with their runner-up, and without: then it goes into bytes that nobody looks at */
static inline answer search_second(uint32_t r, uint32_t m, const int16_t *l, size_t n_,
                                   uint8_t *bits, size_t k, uint8_t *word, size_t w,
                                   uint8_t *second) {
    CALL(cinorbis_search, r, m, l, n_, bits, k, word, w, second);
}

static inline answer search_within_second(uint32_t r, uint32_t m, uint32_t allowed,
                                          const int16_t *l, size_t n_, uint8_t *bits, size_t k,
                                          uint8_t *word, size_t w, uint8_t *second) {
    CALL(cinorbis_search_within, r, m, allowed, l, n_, bits, k, word, w, second);
}

static inline answer search_record_second(uint32_t allowed, const uint8_t *s, size_t n_,
                                          uint8_t *bits, size_t k, uint8_t *word, size_t w,
                                          uint8_t *second) {
    CALL(cinorbis_search_record, allowed, s, n_, bits, k, word, w, second);
}

static inline answer search(uint32_t r, uint32_t m, const int16_t *l, size_t n_, uint8_t *bits,
                            size_t k, uint8_t *word, size_t w) {
    uint8_t second[256];
    return search_second(r, m, l, n_, bits, k, word, w, second);
}

static inline answer search_within(uint32_t r, uint32_t m, uint32_t allowed, const int16_t *l,
                                   size_t n_, uint8_t *bits, size_t k, uint8_t *word, size_t w) {
    uint8_t second[256];
    return search_within_second(r, m, allowed, l, n_, bits, k, word, w, second);
}

static inline answer search_record(uint32_t allowed, const uint8_t *s, size_t n_, uint8_t *bits,
                                   size_t k, uint8_t *word, size_t w) {
    uint8_t second[256];
    return search_record_second(allowed, s, n_, bits, k, word, w, second);
}

#endif
