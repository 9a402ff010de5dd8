/* The search of floats beside the search of whole numbers and beside plain C whose readings and
 * sums are floats (plain.h with other types), in one run: each figure is the least of several
 * alternating rounds. All sides must agree in every result, or the bench fails. */
#include "draw.h"
#include "../include/cinorbis.h"
#include <stdio.h>

#define int16_t float
#define int32_t float
#include "plain.h"
#undef int16_t
#undef int32_t

#ifndef ROUNDS /* less where bench/run is only tried */
#define SETS 64
#define ROUNDS 9
#endif

static int16_t whole[SETS][256];
static float floats[SETS][256];

static void make(size_t n) {
    for (int t = 0; t < SETS; t++)
        for (size_t j = 0; j < n; j++) {
            whole[t][j] = (int16_t)((int)(random64() >> 20 & 65535) % 65535 - 32767);
            floats[t][j] = whole[t][j];
        }
}

typedef struct {
    uint32_t r, m;
    size_t n, k;
} code;

/* what a side did: visits, and a sum over its results */
typedef struct {
    double visits;
    uint64_t sum;
} done;

#define ALLOWED 20000u

static void count(done *d, uint32_t refusal, uint64_t penalty, uint64_t gap, uint64_t visits,
                  uint8_t bit) {
    d->visits += (double)visits;
    d->sum += refusal == 0 ? penalty * 3 + gap + bit : refusal;
}

static done of_floats(code c) {
    uint8_t word[256], bits[256], runner_up[256];
    cinorbis_numbers n;
    done d = {0, 0};
    for (int t = 0; t < SETS; t++) {
        uint32_t refusal = cinorbis_search_float_within(c.r, c.m, ALLOWED, floats[t], c.n, bits,
                                                        c.k, word, c.n, runner_up, &n);
        count(&d, refusal, n.penalty, n.gap, n.visits, bits[0]);
    }
    return d;
}

static done of_whole(code c) {
    uint8_t word[256], bits[256], runner_up[256];
    cinorbis_numbers n;
    done d = {0, 0};
    for (int t = 0; t < SETS; t++) {
        uint32_t refusal = cinorbis_search_within(c.r, c.m, ALLOWED, whole[t], c.n, bits, c.k, word,
                                                  c.n, runner_up, &n);
        count(&d, refusal, n.penalty, n.gap, n.visits, bits[0]);
    }
    return d;
}

static done of_plain(code c) {
    uint8_t word[256], bits[256];
    plain_state s = {0, 0, 0, 0, 0};
    done d = {0, 0};
    for (int t = 0; t < SETS; t++) {
        uint32_t refusal =
            (uint32_t)plain_search(c.r, c.m, ALLOWED, floats[t], c.n, bits, c.k, word, c.n, &s);
        count(&d, refusal, s.best, s.second - s.best, s.visits, bits[0]);
    }
    return d;
}

static double timed(done (*side)(code), code c, done *d) {
    double start = now();
    *d = side(c);
    return now() - start;
}

static int figures(uint32_t r, uint32_t m) {
    uint8_t kinds[256];
    code c = {r, m, (size_t)1 << m, (size_t)plain_kinds(r, m, kinds)};
    double least[3] = {1e300, 1e300, 1e300};
    done (*const side[3])(code) = {of_floats, of_whole, of_plain};
    done d[3];
    make(c.n);
    for (int i = 0; i < ROUNDS; i++)
        for (int k = 0; k < 3; k++) {
            double taken = timed(side[k], c, &d[k]);
            if (taken < least[k]) least[k] = taken;
        }
    printf("| RM(%u,%u) | %.1f | %.1f | %.2f | %.1f | %.2f |\n", (unsigned)r, (unsigned)m,
           least[0] / d[0].visits, least[1] / d[1].visits, least[0] / least[1],
           least[2] / d[2].visits, least[0] / least[2]);
    if (d[0].sum == d[1].sum && d[0].sum == d[2].sum && d[0].visits == d[1].visits &&
        d[0].visits == d[2].visits)
        return 0;
    puts("the sides disagree");
    return 1;
}

int main(void) {
    puts("| search, random readings | floats, ns per visit | whole numbers | ratio | plain C in "
         "floats | ratio |");
    puts("|---|---|---|---|---|---|");
    return figures(4, 8) | figures(3, 8) | figures(2, 8) | figures(2, 5);
}
