/* When to distrust a telegram: random telegrams with normal noise, read by the library, counted by
 * their gap and by whether what was read is what was sent. The gap is counted in readings: 1 is the
 * mean size of the 32 readings at hand, which a box can compute. doubt [TELEGRAMS] prints the table
 * of docs/BOX.md. */
#include "draw.h"
#include "../include/cinorbis.h"
#include <math.h>
#include <stdio.h>
#include <stdlib.h>

#define SIZE 1000.0
#define STEPS 3

/* right, and wrong, by the gap: below 1, from 1 to 2, 2 and more */
typedef struct {
    unsigned long long refused, right[STEPS], wrong[STEPS], polled;
} counts;

static uint32_t below(uint32_t limit) { return (uint32_t)((random64() >> 32) * limit >> 32); }

/* one telegram's readings; gives their mean size */
static double send(const uint8_t *word, double noise, int16_t *readings) {
    double sum = 0;
    for (int j = 0; j < 32; j++) {
        double x = SIZE * (word[j] ? -1 : 1) + SIZE * noise * normal();
        readings[j] = (int16_t)lrint(fmax(-32767, fmin(32767, x)));
        sum += fabs((double)readings[j]);
    }
    return sum / 32;
}

static void count(counts *c, double noise) {
    uint32_t cylinder = below(8), tilt = below(1501), direction = tilt ? below(2) : 0;
    uint8_t word[32];
    int16_t readings[32];
    cinorbis_numbers numbers;
    cinorbis_telegram shown;
    if (cinorbis_telegram_write(cylinder, direction, tilt, word, 32, &numbers) != CINORBIS_DONE)
        exit(1);
    double mean = send(word, noise, readings);
    if (cinorbis_telegram_read(readings, 32, &shown, &numbers) != CINORBIS_DONE) {
        c->refused++;
        return;
    }
    double gap = (double)numbers.gap / mean;
    int step = gap < 1 ? 0 : gap < 2 ? 1 : 2;
    if (shown.cylinder == cylinder && shown.direction == direction && shown.tilt == tilt) {
        c->right[step]++;
    } else {
        c->wrong[step]++;
        c->polled += step > 0 && shown.cylinder == cylinder;
    }
}

int main(int argc, char **argv) {
    static const double noises[] = {0.4, 0.5, 0.58, 0.65, 0.8};
    unsigned long long telegrams = argc > 1 ? strtoull(argv[1], NULL, 10) : 400000;
    printf("| noise | refused | gap below 1: right, wrong | 1 to 2: right, wrong "
           "| 2 and more: right, wrong | wrong and taken |\n|---|---|---|---|---|---|\n");
    for (size_t i = 0; i < sizeof noises / sizeof *noises; i++) {
        counts c = {0, {0}, {0}, 0};
        for (unsigned long long t = 0; t < telegrams; t++) count(&c, noises[i]);
        printf("| %.2f | %llu |", noises[i], c.refused);
        for (int s = 0; s < STEPS; s++) printf(" %llu, %llu |", c.right[s], c.wrong[s]);
        printf(" %llu |\n", c.polled);
    }
    return 0;
}
