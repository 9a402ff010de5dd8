/* Which word for which hull: telegrams and rod positions by the noise of the link, refused and
 * wrong ones counted, and the visits and time that a word takes. Beside the longer telegrams stands
 * the telegram sent several times with its readings added. Noise is the spread of one sent
 * reading's error as a part of its size. hulls [WORDS] prints the tables of docs/BOX.md. */
#include "draw.h"
#include "../include/cinorbis.h"
#include <math.h>
#include <stdio.h>
#include <stdlib.h>
#include <string.h>

#define SIZE 400.0
#define NO_SIGNAL (-1.0)
#define COUNT(list) (sizeof(list) / sizeof *(list))

typedef struct {
    unsigned long long words, refused, wrong, taken, visits, most;
    double time; /* of reading alone, in nanoseconds */
} counts;

/* a telegram of 2^m readings that is sent `times` times */
typedef struct {
    uint32_t m;
    int times;
} format;

static const format formats[] = {{5, 1}, {5, 2}, {6, 1}, {5, 4}, {7, 1}, {5, 8}, {8, 1}};

/* the pairs of bits whose indices a longer telegram keeps, for m = 6, 7, 8 */
static const char *const pairs[] = {"01 02 12 34 35 45 03 14 25", "01 02 13 05 24 34 36 56",
                                    "01 02 13 24 35 45 67"};

/* Whether a gap is an eighth or more of a clean word's: of 2^(m-r) readings of the mean size. */
static int large(uint64_t gap, const int16_t *readings, uint32_t r, uint32_t m) {
    uint64_t sum = 0;
    for (size_t j = 0; j < (size_t)1 << m; j++) sum += (uint64_t)abs(readings[j]);
    return gap * 8 << r >= sum;
}

static uint32_t below(uint32_t limit) { return (uint32_t)((random64() >> 32) * limit >> 32); }

static void done(uint32_t refusal) {
    if (refusal != CINORBIS_DONE) exit(1);
}

/* the row of a longer telegram: of the indices with two zeros all but those of the pairs */
static void name_indices(uint32_t m, uint8_t named[256]) {
    uint32_t n = 1u << m;
    for (uint32_t i = 0; i < n; i++) named[i] = m > 5 && __builtin_popcount(i) == (int)m - 2;
    for (const char *p = m > 5 ? pairs[m - 6] : ""; *p; p += p[2] ? 3 : 2)
        named[n - 1 - (1u << (p[0] - '0')) - (1u << (p[1] - '0'))] = 0;
}

/* The readings of a word, those of the same bit added; with no signal there is noise alone. */
static void send(const uint8_t *word, size_t n, int times, double noise, int16_t *readings) {
    double size = noise < 0 ? 0 : SIZE, spread = noise < 0 ? SIZE : SIZE * noise;
    for (size_t j = 0; j < n; j++) {
        long sum = 0;
        for (int i = 0; i < times; i++) sum += lrint((word[j] ? -size : size) + spread * normal());
        readings[j] = (int16_t)(sum > 32767 ? 32767 : sum < -32767 ? -32767 : sum);
    }
}

/* one telegram at random, written, sent and read */
static void telegram(counts *c, format f, double noise) {
    uint32_t tilt = below(1501), fields = below(8) << 13 | (tilt ? below(2) : 0) << 12 | tilt << 1;
    size_t n = (size_t)1 << f.m;
    uint8_t named[256], sent[16], word[256], bits[16], found[256], runner_up[256];
    int16_t readings[256];
    cinorbis_numbers numbers, none;
    cinorbis_telegram shown;
    for (int i = 0; i < 16; i++) sent[i] = fields >> (15 - i) & 1;
    name_indices(f.m, named);
    done(cinorbis_encode_shortened(2, f.m, named, n, sent, 16, word, n, &none));
    send(word, n, f.times, noise, readings);
    double begun = now();
    uint32_t refusal = cinorbis_search_shortened(2, f.m, named, n, readings, n, bits, 16, found, n,
                                                 runner_up, &numbers);
    if (!refusal) refusal = cinorbis_telegram_of_bits(bits, 16, &shown, &none);
    c->time += now() - begun;
    c->words++;
    c->refused += refusal != CINORBIS_DONE;
    c->wrong += refusal == CINORBIS_DONE && memcmp(bits, sent, 16) != 0;
    c->taken += refusal == CINORBIS_DONE && large(numbers.gap, readings, 2, f.m);
    c->visits += numbers.visits;
    c->most = numbers.visits > c->most ? numbers.visits : c->most;
}

/* one rod position at random, written, sent and read */
static void rod(counts *c, uint32_t m, double noise) {
    size_t n = (size_t)1 << m, k = m + 1;
    uint8_t sent[9], word[256], bits[9], found[256];
    int16_t readings[256];
    cinorbis_numbers numbers;
    for (size_t i = 0; i < m; i++) sent[i] = (uint8_t)below(2);
    sent[m] = 0; /* the marker */
    done(cinorbis_encode(1, m, sent, k, word, n, &numbers));
    send(word, n, 1, noise, readings);
    double begun = now();
    uint32_t refusal = cinorbis_first_order(1, m, readings, n, bits, k, found, n, &numbers);
    if (!refusal && bits[m]) refusal = CINORBIS_MARKER;
    c->time += now() - begun;
    c->words++;
    c->refused += refusal != CINORBIS_DONE;
    c->wrong += refusal == CINORBIS_DONE && memcmp(bits, sent, k) != 0;
    c->taken += refusal == CINORBIS_DONE && large(numbers.gap, readings, 1, m);
}

static const counts zero;

/* a row's first cell */
static void cell(double noise) {
    if (noise == NO_SIGNAL) printf("| no signal |");
    if (noise != NO_SIGNAL) printf("| %.2f |", noise);
}

static void refused_and_wrong(unsigned long long words) {
    static const double noises[] = {0.5, 0.65, 0.8, 1.0, 1.2, 1.4, 1.7, 2.0};
    printf("| noise | RM(2,5), 32 | twice, 64 | m = 6, 64 | four times, 128 | m = 7, 128 "
           "| eight times, 256 | m = 8, 256 |\n|---|---|---|---|---|---|---|---|\n");
    for (size_t i = 0; i < COUNT(noises); i++) {
        cell(noises[i]);
        for (size_t f = 0; f < COUNT(formats); f++) {
            counts c = zero;
            while (c.words < words) telegram(&c, formats[f], noises[i]);
            printf(" %llu, %llu |", c.refused, c.wrong);
        }
        printf("\n");
    }
}

/* Visits and time, of fewer words; the time beside that of the telegram in the same run. */
static void visits_and_time(unsigned long long words) {
    static const double noises[] = {0.5, 1.0, 2.0, NO_SIGNAL};
    printf("\n| noise | RM(2,5) | m = 6 | m = 7 | m = 8 |\n|---|---|---|---|---|\n");
    for (size_t i = 0; i < COUNT(noises); i++) {
        cell(noises[i]);
        counts c[4] = {zero, zero, zero, zero};
        for (unsigned long long w = 0; w < words; w++)
            for (uint32_t m = 5; m <= 8; m++) telegram(c + m - 5, (format){m, 1}, noises[i]);
        for (int m = 0; m < 4; m++) {
            double mean = (double)c[m].visits / (double)words;
            printf(" %.0f, %llu, %.1f |", mean, c[m].most, c[m].time / c[0].time);
        }
        printf("\n");
    }
}

static void no_signal(unsigned long long words) {
    printf("\n| no signal | m = 3 | m = 4 | m = 5 | m = 6 | m = 7 | m = 8 |\n"
           "|---|---|---|---|---|---|---|\n");
    for (int rods = 0; rods <= 1; rods++) {
        printf(rods ? "| rod positions |" : "| telegrams | | |");
        for (uint32_t m = rods ? 3 : 5; m <= 8; m++) {
            counts c = zero;
            while (c.words < words)
                if (rods)
                    rod(&c, m, NO_SIGNAL);
                else
                    telegram(&c, (format){m, 1}, NO_SIGNAL);
            double shown = (double)(c.words - c.refused), all = (double)c.words;
            printf(" %.1f %%, %.2f %% |", 100 * shown / all, 100 * (double)c.taken / all);
        }
        printf("\n");
    }
}

static void rods(unsigned long long words) {
    static const double noises[] = {0.5, 0.8, 1.0, 1.4, 2.0, 2.8};
    printf("\n| noise | m = 3, 8 | m = 4, 16 | m = 5, 32 | m = 6, 64 | m = 7, 128 | m = 8, 256 |\n"
           "|---|---|---|---|---|---|---|\n");
    for (size_t i = 0; i < COUNT(noises); i++) {
        cell(noises[i]);
        for (uint32_t m = 3; m <= 8; m++) {
            counts c = zero;
            while (c.words < words) rod(&c, m, noises[i]);
            printf(" %llu, %llu |", c.refused, c.wrong);
        }
        printf("\n");
    }
}

int main(int argc, char **argv) {
    unsigned long long words = argc > 1 ? strtoull(argv[1], NULL, 10) : 200000;
    refused_and_wrong(words);
    visits_and_time(words / 10);
    rods(words);
    no_signal(words);
    return 0;
}
