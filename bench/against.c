/* Times this library beside another archive of it, whose calls are named old_cinorbis_..: what a
 * change of the code brings, code by code. All 45 codes, at noise that grows with the code's
 * distance and on readings of no word; the search, the search of floats, the quick reading and the
 * inverse. Both sides take turns, the least of the rounds counts, and both must agree in every
 * result, or the program fails. A line for each code: its two numbers, and five ratios. */
#include "draw.h"
#include "../include/cinorbis.h"
#include "plain.h"
#include <math.h>
#include <stdio.h>
#include <string.h>

#ifndef ROUNDS /* less where bench/run is only tried */
#define SETS 24
#define ROUNDS 41
#endif

extern __typeof__(cinorbis_search_within) old_cinorbis_search_within;
extern __typeof__(cinorbis_search_float_within) old_cinorbis_search_float_within;
extern __typeof__(cinorbis_quick) old_cinorbis_quick;
extern __typeof__(cinorbis_inverse) old_cinorbis_inverse;

static int16_t readings[SETS][256];
static float floats[SETS][256];
static uint8_t words[SETS][256];
static uint64_t sums[2];

typedef struct {
    uint32_t r, m, allowed;
    cinorbis_size n, k;
} code;

/* noise < 0: readings of no word */
static void make(code c, double noise) {
    for (int t = 0; t < SETS; t++) {
        uint8_t bits[256];
        for (cinorbis_size i = 0; i < c.k; i++) bits[i] = random64() >> 40 & 1;
        plain_encode(c.r, c.m, bits, c.k, words[t], c.n);
        for (cinorbis_size j = 0; j < c.n; j++) {
            double x = noise < 0 ? (double)(random64() >> 20 & 4095) - 2047.5
                                 : 400 * (words[t][j] ? -1 : 1) + 400 * noise * normal();
            readings[t][j] = (int16_t)lrint(x);
            floats[t][j] = readings[t][j];
        }
    }
}

static uint8_t bits[256], word[256], runner_up[256];
static cinorbis_numbers numbers;

static void add(int side, uint32_t refusal) {
    uint64_t s = sums[side] * 31 + refusal;
    s = s * 31 + numbers.penalty;
    s = s * 31 + numbers.gap;
    s = s * 31 + numbers.visits;
    for (int j = 0; j < 256; j += 8) s = s * 31 + word[j] + 2u * bits[j] + 4u * runner_up[j];
    sums[side] = s;
}

static uint32_t search(int side, code c, int t) {
    return (side ? old_cinorbis_search_within : cinorbis_search_within)(
        c.r, c.m, c.allowed, readings[t], c.n, bits, c.k, word, c.n, runner_up, &numbers);
}

static uint32_t search_float(int side, code c, int t) {
    return (side ? old_cinorbis_search_float_within : cinorbis_search_float_within)(
        c.r, c.m, c.allowed, floats[t], c.n, bits, c.k, word, c.n, runner_up, &numbers);
}

static uint32_t quick(int side, code c, int t) {
    return (side ? old_cinorbis_quick : cinorbis_quick)(c.r, c.m, readings[t], c.n, bits, c.k, word,
                                                        c.n, &numbers);
}

static uint32_t inverse(int side, code c, int t) {
    return (side ? old_cinorbis_inverse : cinorbis_inverse)(c.r, c.m, words[t], c.n, bits, c.k,
                                                            &numbers);
}

/* This library's time over the other's. */
static double ratio(uint32_t (*call)(int, code, int), code c) {
    double least[2] = {1e300, 1e300};
    int repeats = 1;
    for (;;) { /* until one side takes half a millisecond */
        double start = now();
        for (int i = 0; i < repeats; i++)
            for (int t = 0; t < SETS; t++) call(1, c, t);
        if (now() - start > 5e5) break;
        repeats *= 2;
    }
    sums[0] = sums[1] = 0;
    for (int side = 0; side < 2; side++)
        for (int t = 0; t < SETS; t++) add(side, call(side, c, t));
    if (sums[0] != sums[1]) return -1;
    for (int round = 0; round < 2 * ROUNDS; round++) {
        int side = (round + round / 2) % 2;
        double start = now();
        for (int i = 0; i < repeats; i++)
            for (int t = 0; t < SETS; t++) call(side, c, t);
        double took = now() - start;
        if (took < least[side]) least[side] = took;
    }
    return least[0] / least[1];
}

int main(void) {
    for (uint32_t m = 0; m <= 8; m++)
        for (uint32_t r = 0; r <= m; r++) {
            uint8_t kinds[256];
            code c = {r, m, 20000, (cinorbis_size)1 << m, 0};
            c.k = (cinorbis_size)plain_kinds(r, m, kinds);
            double got[5];
            make(c, -1);
            got[1] = ratio(search, c);
            /* about where half of the errors that the distance bears occur */
            make(c, 0.25 + 0.08 * (m - r));
            got[0] = ratio(search, c);
            got[2] = ratio(search_float, c);
            got[3] = ratio(quick, c);
            got[4] = ratio(inverse, c);
            printf("%u %u", r, m);
            for (int i = 0; i < 5; i++) {
                if (got[i] < 0) {
                    fprintf(stderr, "RM(%u,%u): the results differ\n", r, m);
                    return 1;
                }
                printf(" %.4f", got[i]);
            }
            printf("\n");
        }
    return 0;
}
