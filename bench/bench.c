/* Times the library beside plain C (plain.h) and C written for vector code (vector.c) in one run:
 * each figure is the least of several alternating rounds, and what counts is the ratio. All sides
 * must agree in every result, or the bench fails. `bench grow` prints visits and time per word over
 * all codes and three noise levels instead. */
#include "draw.h"
#include "../include/cinorbis.h"
#include "plain.h"
#include "vector.h"
#include <math.h>
#include <stdio.h>
#include <stdlib.h>

#ifndef ROUNDS /* less where bench/run is only tried */
#define SETS 64
#define ROUNDS 25
#endif

static int16_t readings[SETS][256];
static uint8_t information[SETS][256], words[SETS][256];
static uint64_t sum_library, sum_plain, sum_vector;

static size_t dimension(uint32_t r, uint32_t m) {
    uint8_t kinds[256];
    return (size_t)plain_kinds(r, m, kinds);
}

/* noise < 0: readings of no word at all; else a word's signs of size 400 with normal noise of that
 * many times 400 */
static void make(uint32_t r, uint32_t m, double noise) {
    size_t n = (size_t)1 << m, k = dimension(r, m);
    for (int t = 0; t < SETS; t++) {
        uint8_t *word = words[t];
        for (size_t i = 0; i < k; i++) information[t][i] = random64() >> 40 & 1;
        plain_encode(r, m, information[t], k, word, n);
        for (size_t j = 0; j < n; j++) {
            double x = noise < 0 ? (double)(random64() >> 20 & 4095) - 2047.5
                                 : 400 * (word[j] ? -1 : 1) + 400 * noise * normal();
            if (x > 2047) x = 2047;
            if (x < -2047) x = -2047;
            readings[t][j] = (int16_t)lrint(x);
        }
    }
}

typedef struct {
    uint32_t r, m, allowed;
    int repeats;
} work;

/* each returns the number of units done: words, or visits */
static double library_encode(work w) {
    uint8_t word[256];
    cinorbis_numbers n;
    size_t k = dimension(w.r, w.m);
    for (int i = 0; i < w.repeats; i++)
        for (int t = 0; t < SETS; t++) {
            sum_library += cinorbis_encode(w.r, w.m, information[t], k, word, (size_t)1 << w.m, &n);
            sum_library += word[t & ((1 << w.m) - 1)];
        }
    return (double)w.repeats * SETS;
}

static double c_encode(work w) {
    uint8_t word[256];
    size_t k = dimension(w.r, w.m);
    for (int i = 0; i < w.repeats; i++)
        for (int t = 0; t < SETS; t++) {
            plain_encode(w.r, w.m, information[t], k, word, (size_t)1 << w.m);
            sum_plain += word[t & ((1 << w.m) - 1)];
        }
    return (double)w.repeats * SETS;
}

static double v_encode(work w) {
    uint8_t word[256];
    size_t k = dimension(w.r, w.m);
    for (int i = 0; i < w.repeats; i++)
        for (int t = 0; t < SETS; t++) {
            vector_encode(w.r, w.m, information[t], k, word, (size_t)1 << w.m);
            sum_vector += word[t & ((1 << w.m) - 1)];
        }
    return (double)w.repeats * SETS;
}

static double library_inverse(work w) {
    uint8_t bits[256];
    cinorbis_numbers n;
    size_t k = dimension(w.r, w.m), l = (size_t)1 << w.m;
    for (int i = 0; i < w.repeats; i++)
        for (int t = 0; t < SETS; t++) {
            sum_library += cinorbis_inverse(w.r, w.m, words[t], l, bits, k, &n);
            sum_library += bits[(size_t)t % k];
        }
    return (double)w.repeats * SETS;
}

static double c_inverse(work w) {
    uint8_t bits[256];
    size_t k = dimension(w.r, w.m), l = (size_t)1 << w.m;
    for (int i = 0; i < w.repeats; i++)
        for (int t = 0; t < SETS; t++) {
            sum_plain += (uint64_t)plain_inverse(w.r, w.m, words[t], l, bits, k);
            sum_plain += bits[(size_t)t % k];
        }
    return (double)w.repeats * SETS;
}

static double v_inverse(work w) {
    uint8_t bits[256];
    size_t k = dimension(w.r, w.m), l = (size_t)1 << w.m;
    for (int i = 0; i < w.repeats; i++)
        for (int t = 0; t < SETS; t++) {
            sum_vector += (uint64_t)vector_inverse(w.r, w.m, words[t], l, bits, k);
            sum_vector += bits[(size_t)t % k];
        }
    return (double)w.repeats * SETS;
}

static double library_quick(work w) {
    uint8_t word[256], bits[256];
    cinorbis_numbers n;
    size_t k = dimension(w.r, w.m), l = (size_t)1 << w.m;
    for (int i = 0; i < w.repeats; i++)
        for (int t = 0; t < SETS; t++) {
            sum_library += cinorbis_quick(w.r, w.m, readings[t], l, bits, k, word, l, &n);
            sum_library += n.penalty + bits[0];
        }
    return (double)w.repeats * SETS;
}

static double c_quick(work w) {
    uint8_t word[256], bits[256];
    uint32_t penalty = 0;
    size_t k = dimension(w.r, w.m), l = (size_t)1 << w.m;
    for (int i = 0; i < w.repeats; i++)
        for (int t = 0; t < SETS; t++) {
            plain_quick(w.r, w.m, readings[t], l, bits, k, word, l, &penalty);
            sum_plain += penalty + bits[0];
        }
    return (double)w.repeats * SETS;
}

static double v_quick(work w) {
    uint8_t word[256], bits[256];
    uint32_t penalty = 0;
    size_t k = dimension(w.r, w.m), l = (size_t)1 << w.m;
    for (int i = 0; i < w.repeats; i++)
        for (int t = 0; t < SETS; t++) {
            vector_quick(w.r, w.m, readings[t], l, bits, k, word, l, &penalty);
            sum_vector += penalty + bits[0];
        }
    return (double)w.repeats * SETS;
}

static double library_search(work w) {
    uint8_t word[256], bits[256], runner_up[256];
    cinorbis_numbers n;
    double visits = 0;
    size_t k = dimension(w.r, w.m), l = (size_t)1 << w.m;
    for (int i = 0; i < w.repeats; i++)
        for (int t = 0; t < SETS; t++) {
            uint32_t refusal = cinorbis_search_within(w.r, w.m, w.allowed, readings[t], l, bits, k,
                                                      word, l, runner_up, &n);
            visits += (double)n.visits;
            sum_library += refusal == 0 ? n.penalty * 3 + n.gap + bits[0] : refusal;
        }
    return visits;
}

static double c_search(work w) {
    uint8_t word[256], bits[256];
    plain_state s = {0, 0, 0, 0, 0};
    double visits = 0;
    size_t k = dimension(w.r, w.m), l = (size_t)1 << w.m;
    for (int i = 0; i < w.repeats; i++)
        for (int t = 0; t < SETS; t++) {
            uint32_t refusal =
                (uint32_t)plain_search(w.r, w.m, w.allowed, readings[t], l, bits, k, word, l, &s);
            visits += s.visits;
            sum_plain +=
                refusal == 0 ? (uint64_t)s.best * 3 + (s.second - s.best) + bits[0] : refusal;
        }
    return visits;
}

static double v_search(work w) {
    uint8_t word[256], bits[256];
    vector_end e = {0, 0, 0};
    double visits = 0;
    size_t k = dimension(w.r, w.m), l = (size_t)1 << w.m;
    for (int i = 0; i < w.repeats; i++)
        for (int t = 0; t < SETS; t++) {
            uint32_t refusal =
                (uint32_t)vector_search(w.r, w.m, w.allowed, readings[t], l, bits, k, word, l, &e);
            visits += e.visits;
            sum_vector +=
                refusal == 0 ? (uint64_t)e.best * 3 + (e.second - e.best) + bits[0] : refusal;
        }
    return visits;
}

static double library_first_order(work w) {
    uint8_t word[256], bits[256];
    cinorbis_numbers n;
    size_t l = (size_t)1 << w.m;
    for (int i = 0; i < w.repeats; i++)
        for (int t = 0; t < SETS; t++) {
            uint32_t refusal =
                cinorbis_first_order(1, w.m, readings[t], l, bits, w.m + 1, word, l, &n);
            sum_library +=
                refusal == 0 ? n.penalty * 3 + n.gap + bits[w.m] + word[t & (l - 1)] : refusal;
        }
    return (double)w.repeats * SETS;
}

static double c_first_order(work w) {
    uint8_t word[256], bits[256];
    plain_state s = {0, 0, 0, 0, 0};
    size_t l = (size_t)1 << w.m;
    for (int i = 0; i < w.repeats; i++)
        for (int t = 0; t < SETS; t++) {
            uint32_t refusal =
                (uint32_t)plain_first_order(w.m, readings[t], l, bits, w.m + 1, word, l, &s);
            sum_plain += refusal == 0 ? (uint64_t)s.best * 3 + (s.second - s.best) + bits[w.m] +
                                            word[t & (l - 1)]
                                      : refusal;
        }
    return (double)w.repeats * SETS;
}

static double v_first_order(work w) {
    uint8_t word[256], bits[256];
    vector_end e = {0, 0, 0};
    size_t l = (size_t)1 << w.m;
    for (int i = 0; i < w.repeats; i++)
        for (int t = 0; t < SETS; t++) {
            uint32_t refusal =
                (uint32_t)vector_first_order(w.m, readings[t], l, bits, w.m + 1, word, l, &e);
            sum_vector += refusal == 0 ? (uint64_t)e.best * 3 + (e.second - e.best) + bits[w.m] +
                                             word[t & (l - 1)]
                                       : refusal;
        }
    return (double)w.repeats * SETS;
}

static double once(double (*f)(work), work w, double *units) {
    double start = now();
    *units = f(w);
    return now() - start;
}

static int disagreed;

/* the three sides of a call */
typedef struct {
    double (*library)(work), (*plain)(work), (*vector)(work);
} sides;

static const sides encode_sides = {library_encode, c_encode, v_encode},
                   inverse_sides = {library_inverse, c_inverse, v_inverse},
                   quick_sides = {library_quick, c_quick, v_quick},
                   search_sides = {library_search, c_search, v_search},
                   first_order_sides = {library_first_order, c_first_order, v_first_order};

typedef struct {
    double library, plain, vector, units;
} times;

/* all sides in alternating rounds; the least time of each */
static times measure(const char *name, work w, sides s) {
    times t = {1e300, 1e300, 1e300, 0};
    double units_plain = 0, units_vector = 0;
    sum_library = sum_plain = sum_vector = 0;
    for (int i = 0; i < ROUNDS; i++) {
        double a = once(s.library, w, &t.units), b = once(s.plain, w, &units_plain),
               c = once(s.vector, w, &units_vector);
        if (a < t.library) t.library = a;
        if (b < t.plain) t.plain = b;
        if (c < t.vector) t.vector = c;
    }
    if (sum_library != sum_plain || sum_library != sum_vector || t.units != units_plain ||
        t.units != units_vector) {
        printf("%s: the sides disagree\n", name);
        disagreed = 1;
    }
    return t;
}

static void row(const char *name, times t, double units) {
    int digits = t.library / units < 1000;
    printf("| %s | %.*f | %.*f | %.2f | %.*f | %.2f |\n", name, digits, t.library / units, digits,
           t.plain / units, t.library / t.plain, digits, t.vector / units, t.library / t.vector);
}

static void compare(const char *name, work w, sides s) {
    times t = measure(name, w, s);
    row(name, t, t.units);
}

/* how many of the words are out of visits */
static int out_of_visits(work w) {
    uint8_t bits[256], word[256], runner_up[256];
    cinorbis_numbers n;
    size_t k = dimension(w.r, w.m), l = (size_t)1 << w.m;
    int out = 0;
    for (int t = 0; t < SETS; t++)
        out += cinorbis_search_within(w.r, w.m, w.allowed, readings[t], l, bits, k, word, l,
                                      runner_up, &n) == CINORBIS_OUT_OF_VISITS;
    return out;
}

/* readings of no word may need more visits than any allowance, so they are cut short; a word with
 * noise has the default allowance */
static void search_figures(uint32_t r, uint32_t m, double noise, const char *kind) {
    char name[120];
    work w = {r, m, noise < 0 ? 20000 : CINORBIS_DEFAULT_ALLOWANCE, 1};
    make(r, m, noise);
    snprintf(name, sizeof name, "search RM(%u,%u), %s, per visit", (unsigned)r, (unsigned)m, kind);
    times t = measure(name, w, search_sides);
    row(name, t, t.units);
    if (noise < 0) return;
    snprintf(name, sizeof name,
             "search RM(%u,%u), %s, per word: %.0f visits, %d of %d out of visits", (unsigned)r,
             (unsigned)m, kind, t.units / SETS, out_of_visits(w), SETS);
    row(name, t, SETS);
}

/* first-order words, beside C and beside the search of the same readings with an allowance that is
 * never too small */
static void first_order_figures(void) {
    char name[] = "first-order words RM(1,8)",
         search[] = "search RM(1,8), the same readings, per word";
    work w = {1, 8, UINT32_MAX, 200}, s = {1, 8, UINT32_MAX, 1};
    make(1, 8, 0.7);
    times first = measure(name, w, first_order_sides), walk = measure(search, s, search_sides);
    row(name, first, first.units);
    row(search, walk, SETS);
    printf("| first-order words of the search's time, per word | | | %.3f | | |\n",
           first.library / first.units / (walk.library / SETS));
}

/* records of RM(2,5): packed once, then searched */
static void record_figures(void) {
    static uint8_t bytes[SETS][CINORBIS_LARGEST_RECORD];
    uint8_t bits[256], word[256], runner_up[256];
    cinorbis_numbers n;
    make(2, 5, 0.4);
    for (int t = 0; t < SETS; t++) {
        bytes[t][0] = 0x52;
        for (int j = 0; j < 32; j += 2) {
            unsigned a = (unsigned)readings[t][j] & 0xfff, b = (unsigned)readings[t][j + 1] & 0xfff;
            uint8_t *at = bytes[t] + 1 + j / 2 * 3;
            at[0] = (uint8_t)(a >> 4);
            at[1] = (uint8_t)((a & 15) << 4 | b >> 8);
            at[2] = (uint8_t)b;
        }
    }
    double least = 1e300;
    for (int i = 0; i < ROUNDS; i++) {
        double start = now();
        for (int repeat = 0; repeat < 20; repeat++)
            for (int t = 0; t < SETS; t++)
                sum_library += cinorbis_search_record(1000000, bytes[t], 49, bits, 16, word, 32,
                                                      runner_up, &n);
        double taken = (now() - start) / (20.0 * SETS);
        if (taken < least) least = taken;
    }
    printf("\nrecords of RM(2,5), noise 0.4: %.0f per second\n", 1e9 / least);
}

static void grow(void) {
    static const double noise[3] = {0.3, 0.5, 0.8};
    puts("r m k noise visits ns refused");
    for (uint32_t m = 0; m <= 8; m++)
        for (uint32_t r = 0; r <= m; r++)
            for (int level = 0; level < 3; level++) {
                make(r, m, noise[level]);
                uint8_t bits[256], word[256], runner_up[256];
                cinorbis_numbers n;
                size_t k = dimension(r, m), l = (size_t)1 << m;
                double visits = 0, start = now();
                int out = 0;
                for (int t = 0; t < SETS; t++) {
                    out += cinorbis_search_within(r, m, 200000, readings[t], l, bits, k, word, l,
                                                  runner_up, &n) == 6;
                    visits += (double)n.visits;
                }
                printf("%u %u %zu %.1f %.1f %.0f %d\n", (unsigned)r, (unsigned)m, k, noise[level],
                       visits / SETS, (now() - start) / SETS, out);
            }
}

int main(int argc, char **argv) {
    if (argc == 2 && strcmp(argv[1], "grow") == 0) {
        grow();
        return 0;
    }
    puts("| what | library, ns | plain C, ns | ratio | vector C, ns | ratio |");
    puts("|---|---|---|---|---|---|");
    make(4, 8, -1);
    work e = {4, 8, 0, 200}, q = {4, 8, 0, 60}, e5 = {2, 5, 0, 1000}, q5 = {2, 5, 0, 500};
    compare("encode RM(4,8)", e, encode_sides);
    compare("inverse RM(4,8)", e, inverse_sides);
    compare("quick reading RM(4,8)", q, quick_sides);
    make(2, 5, -1);
    compare("encode RM(2,5)", e5, encode_sides);
    compare("quick reading RM(2,5)", q5, quick_sides);
    search_figures(4, 8, -1, "random");
    search_figures(3, 8, -1, "random");
    search_figures(2, 8, -1, "random");
    search_figures(2, 5, -1, "random");
    search_figures(4, 8, 0.35, "noisy");
    search_figures(3, 8, 0.5, "noisy");
    search_figures(2, 8, 0.7, "noisy");
    search_figures(2, 5, 0.5, "noisy");
    first_order_figures();
    record_figures();
    return disagreed;
}
