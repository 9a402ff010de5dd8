/* Times the library's transform of 256 bits, which no export hands out, beside the recursion by
 * halves in plain C (plain.h), in one run: the least of several alternating rounds. Both must give
 * the same bits. bench/run makes `bit_rows_transform` of the library's module. */
#include "draw.h"
#include "plain.h"
#include <stdio.h>

#ifndef ROUNDS /* less where bench/run is only tried */
#define ROUNDS 25
#define REPEATS 20000
#endif

void bit_rows_transform(uint8_t *word, size_t length, size_t m);

static uint8_t library_bits[256], plain_bits[256];

static double library_round(void) {
    double start = now();
    for (int i = 0; i < REPEATS; i++) bit_rows_transform(library_bits, sizeof library_bits, 8);
    return (now() - start) / REPEATS;
}

static double plain_round(void) {
    double start = now();
    for (int i = 0; i < REPEATS; i++) plain_transform(plain_bits, sizeof plain_bits);
    return (now() - start) / REPEATS;
}

int main(void) {
    double library = 1e300, plain = 1e300;
    for (size_t i = 0; i < 256; i++) library_bits[i] = plain_bits[i] = (uint8_t)(i * 7919 % 31 & 1);
    bit_rows_transform(library_bits, sizeof library_bits, 8);
    plain_transform(plain_bits, sizeof plain_bits);
    int same = memcmp(library_bits, plain_bits, sizeof plain_bits) == 0;
    for (int i = 0; i < ROUNDS; i++) {
        double a = library_round(), b = plain_round();
        if (a < library) library = a;
        if (b < plain) plain = b;
    }
    printf("| transform of 256 bits | %.1f | %.1f | %.2f |\n", library, plain, library / plain);
    if (!same) puts("transform: the two sides disagree");
    return !same;
}
