/* The early answer beside the search, in one process: the share of words that it answers at once,
 * and the time of both per word, for four codes at three noise levels, with readings clipped at the
 * word's size and not clipped. Each time is the least of several alternating rounds; both calls
 * must agree wherever the search answers. */
#include "draw.h"
#include "../include/cinorbis.h"
#include <math.h>
#include <stdio.h>
#include <string.h>

#ifndef ROUNDS /* less where bench/run is only tried */
#define WORDS 256
#define ROUNDS 7
#endif
#define SIZE 400.0

static int16_t readings[WORDS][256];

static size_t dimension(uint32_t r, uint32_t m) {
    size_t k = 0;
    for (uint32_t i = 0; i < 1u << m; i++) {
        uint32_t ones = 0;
        for (uint32_t j = i; j; j &= j - 1) ones++;
        k += ones + r >= m;
    }
    return k;
}

/* a random word's signs with normal noise of so many times its size */
static void make(uint32_t r, uint32_t m, double noise, double most) {
    size_t n = (size_t)1 << m, k = dimension(r, m);
    for (int t = 0; t < WORDS; t++) {
        uint8_t bits[256], word[256];
        cinorbis_numbers numbers;
        for (size_t i = 0; i < k; i++) bits[i] = random64() >> 40 & 1;
        if (cinorbis_encode(r, m, bits, k, word, n, &numbers) != CINORBIS_DONE) memset(word, 0, n);
        for (size_t j = 0; j < n; j++) {
            double x = SIZE * (word[j] ? -1 : 1) + SIZE * noise * normal();
            readings[t][j] = (int16_t)lrint(fmax(-most, fmin(most, x)));
        }
    }
}

typedef uint32_t call(uint32_t, uint32_t, const int16_t *, size_t, uint8_t *, size_t, uint8_t *,
                      size_t, cinorbis_numbers *);

/* the search, whose runner-up nobody looks at */
static uint32_t search_alone(uint32_t r, uint32_t m, const int16_t *l, size_t n, uint8_t *bits,
                             size_t k, uint8_t *word, size_t w, cinorbis_numbers *numbers) {
    uint8_t runner_up[256];
    return cinorbis_search(r, m, l, n, bits, k, word, w, runner_up, numbers);
}

/* the time of one round over all words */
static double round_of(call *f, uint32_t r, uint32_t m) {
    uint8_t bits[256], word[256];
    cinorbis_numbers numbers;
    volatile uint64_t sum = 0;
    size_t n = (size_t)1 << m, k = dimension(r, m);
    double start = now();
    for (int t = 0; t < WORDS; t++)
        sum += f(r, m, readings[t], n, bits, k, word, n, &numbers) + numbers.penalty;
    return now() - start;
}

static int disagreed;

/* how many words are answered at once; both calls beside each other */
static int at_once(uint32_t r, uint32_t m) {
    int count = 0;
    size_t n = (size_t)1 << m, k = dimension(r, m);
    for (int t = 0; t < WORDS; t++) {
        uint8_t bits[2][256], word[2][256];
        cinorbis_numbers a, b;
        count += cinorbis_early_within(r, m, 0, readings[t], n, bits[0], k, word[0], n, &a) ==
                 CINORBIS_DONE;
        if (search_alone(r, m, readings[t], n, bits[0], k, word[0], n, &a) != CINORBIS_DONE)
            continue;
        if (cinorbis_early(r, m, readings[t], n, bits[1], k, word[1], n, &b) != CINORBIS_DONE ||
            a.penalty != b.penalty || memcmp(bits[0], bits[1], k) != 0 ||
            memcmp(word[0], word[1], n) != 0)
            disagreed = 1;
    }
    return count;
}

static void figures(uint32_t r, uint32_t m, double noise, int clipped) {
    make(r, m, noise, clipped ? SIZE : CINORBIS_LARGEST_READING);
    int count = at_once(r, m);
    double early = INFINITY, search = INFINITY;
    for (int i = 0; i < ROUNDS; i++) {
        early = fmin(early, round_of(cinorbis_early, r, m));
        search = fmin(search, round_of(search_alone, r, m));
    }
    printf("| RM(%u,%u) | %.2f | %s | %.0f%% | %.2f | %.2f | %.2f |\n", r, m, noise,
           clipped ? "yes" : "no", 100.0 * count / WORDS, early / WORDS / 1000,
           search / WORDS / 1000, early / search);
}

int main(void) {
    static const struct {
        uint32_t r, m;
        double noise[3];
    } codes[4] = {{1, 5, {0.2, 0.6, 1.0}},
                  {2, 5, {0.1, 0.4, 0.7}},
                  {2, 8, {0.1, 0.4, 0.7}},
                  {4, 8, {0.05, 0.15, 0.25}}};
    puts("| code | noise | clipped | at once | early, us | search, us | ratio |");
    puts("|---|---|---|---|---|---|---|");
    for (int clipped = 1; clipped >= 0; clipped--)
        for (int c = 0; c < 4; c++)
            for (int i = 0; i < 3; i++) figures(codes[c].r, codes[c].m, codes[c].noise[i], clipped);
    if (disagreed) puts("the two calls disagree");
    return disagreed;
}
