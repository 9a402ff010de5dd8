/* The calls of vector.c: each returns the number of the refusal, or 0. */
#ifndef VECTOR_H
#define VECTOR_H

#include <stddef.h>
#include <stdint.h>

/* of the least two penalties, and what the walk visited */
typedef struct {
    uint32_t best, second, visits;
} vector_end;

int vector_encode(uint32_t r, uint32_t m, const uint8_t *bits, size_t k, uint8_t *word, size_t w);
int vector_inverse(uint32_t r, uint32_t m, const uint8_t *word, size_t w, uint8_t *bits, size_t k);
int vector_quick(uint32_t r, uint32_t m, const int16_t *l, size_t ll, uint8_t *bits, size_t k,
                 uint8_t *word, size_t w, uint32_t *penalty);
int vector_search(uint32_t r, uint32_t m, uint32_t allowed, const int16_t *l, size_t ll,
                  uint8_t *bits, size_t k, uint8_t *word, size_t w, vector_end *end);
int vector_first_order(uint32_t m, const int16_t *l, size_t ll, uint8_t *bits, size_t k,
                       uint8_t *word, size_t w, vector_end *end);

#endif
