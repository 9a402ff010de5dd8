/* The program (docs/RULES.md, §8) in plain C over the search of vector.c, for measuring beside it:
 * reads a capture from standard input and writes a line for each record. With `make N` as arguments
 * it writes a capture of N noisy records of RM(2,5) instead. */
#include "draw.h"
#include "vector.h"
#include <math.h>
#include <stdio.h>
#include <stdlib.h>

static int16_t reading_at(const uint8_t *packed, size_t j) {
    const uint8_t *at = packed + j / 2 * 3;
    unsigned x = j % 2 ? (at[1] & 15u) << 8 | at[2] : (unsigned)at[0] << 4 | at[1] >> 4;
    int value = x > 2047 ? (int)x - 4096 : (int)x;
    return (int16_t)(value < -2047 ? -2047 : value); /* the bottom rail is a reading */
}

/* the number of information bits */
static size_t dimension(uint32_t r, uint32_t m) {
    size_t k = 0;
    for (uint32_t i = 0; i < 1u << m; i++) k += m - r <= (uint32_t)__builtin_popcount(i);
    return k;
}

static int decoded(unsigned long number, uint32_t r, uint32_t m, const uint8_t *packed) {
    int16_t readings[256];
    uint8_t bits[257], word[256];
    vector_end end;
    size_t n = (size_t)1 << m, k = dimension(r, m);
    if (m == 0 && packed[1] & 15) return 9;
    for (size_t j = 0; j < n; j++) readings[j] = reading_at(packed, j);
    int refusal = vector_search(r, m, 1000000, readings, n, bits, k, word, n, &end);
    if (refusal) return refusal;
    for (size_t i = 0; i < k; i++) bits[i] += '0';
    bits[k] = 0;
    printf("%lu info %s penalty %u margin %u visits %u\n", number, (char *)bits, (unsigned)end.best,
           (unsigned)(end.second - end.best), (unsigned)end.visits);
    return 0;
}

static void decode(void) {
    uint8_t packed[384];
    unsigned long done = 0, refused = 0;
    for (int first; (first = getchar()) != EOF;) {
        uint32_t m = (uint32_t)first >> 4, r = (uint32_t)first & 15;
        int refusal = 1;
        if (m <= 8 && r <= m) {
            size_t bytes = (3 * ((size_t)1 << m) + 1) / 2;
            refusal =
                fread(packed, 1, bytes, stdin) < bytes ? 8 : decoded(done + refused, r, m, packed);
        }
        if (refusal) printf("%lu refused %d\n", done + refused, refusal);
        done += refusal == 0;
        refused += refusal != 0;
        if (refusal == 1 || refusal == 8) break;
    }
    printf("%lu read, %lu refused\n", done, refused);
}

static void make(unsigned long records) {
    while (records--) {
        uint8_t bits[16], word[32];
        for (int i = 0; i < 16; i++) bits[i] = random64() >> 40 & 1;
        vector_encode(2, 5, bits, 16, word, 32);
        putchar(0x52);
        for (int j = 0; j < 32; j += 2) {
            unsigned pair = 0;
            for (int i = j; i < j + 2; i++) {
                double x = 400 * (word[i] ? -1 : 1) + 200 * normal();
                pair = pair << 12 | ((unsigned)lrint(x) & 0xfff);
            }
            putchar((int)(pair >> 16));
            putchar((int)(pair >> 8 & 255));
            putchar((int)(pair & 255));
        }
    }
}

int main(int argc, char **argv) {
    if (argc == 3)
        make(strtoul(argv[2], NULL, 10));
    else
        decode();
    return 0;
}
