/* docs/RULES.md written down as plainly as C allows, for comparing: brute force over all words, and
 * the walk by its text. It shares nothing with the library. Values are computed again from the
 * readings for every visit, which is slow and simple. */
#ifndef REFERENCE_H
#define REFERENCE_H

#include "check.h"
#include <stdint.h>
#include <string.h>

#define REF_N 256

static inline int ref_ones(unsigned i) {
    int c = 0;
    for (; i; i >>= 1) c += i & 1;
    return c;
}

/* a row of n bytes that names information indices which are to be 0 as well, where it is not null:
 * all below then speaks of the smaller set */
static const uint8_t *ref_named;

static inline int ref_is_information(int r, int m, int i) {
    return ref_ones((unsigned)i) >= m - r && !(ref_named && ref_named[i]);
}

static inline int ref_k(int r, int m) {
    int k = 0;
    for (int i = 0; i < 1 << m; i++) k += ref_is_information(r, m, i);
    return k;
}

/* x_j is the sum modulo 2 of all u_i where every one-bit of j is also a one-bit of i */
static inline void ref_word(int m, const uint8_t *u, uint8_t *x) {
    for (int j = 0; j < 1 << m; j++) {
        int s = 0;
        for (int i = 0; i < 1 << m; i++)
            if ((j & ~i) == 0) s += u[i];
        x[j] = (uint8_t)(s % 2);
    }
}

static inline void ref_fill(int r, int m, const uint8_t *bits, uint8_t *u) {
    int at = 0;
    for (int i = 0; i < 1 << m; i++) u[i] = ref_is_information(r, m, i) ? bits[at++] : 0;
}

static inline void ref_pick(int r, int m, const uint8_t *u, uint8_t *bits) {
    int at = 0;
    for (int i = 0; i < 1 << m; i++)
        if (ref_is_information(r, m, i)) bits[at++] = u[i];
}

static inline void ref_encode(int r, int m, const uint8_t *bits, uint8_t *x) {
    uint8_t u[REF_N];
    ref_fill(r, m, bits, u);
    ref_word(m, u, x);
}

static inline void random_word(int r, int m, uint8_t *x) {
    uint8_t bits[REF_N];
    for (int i = 0; i < REF_N; i++) bits[i] = (uint8_t)random_below(2);
    ref_encode(r, m, bits, x);
}

static inline long long ref_penalty(int n, const int16_t *l, const uint8_t *x) {
    long long p = 0;
    for (int j = 0; j < n; j++) {
        if (l[j] > 0 && x[j] == 1) p += l[j];
        if (l[j] < 0 && x[j] == 0) p += -l[j];
    }
    return p;
}

typedef struct {
    long long least, next; /* penalties, with repeats */
    uint8_t bits[REF_N], word[REF_N];
} ref_best_t;

/* over all 2^k words */
static inline ref_best_t ref_best(int r, int m, const int16_t *l) {
    ref_best_t b = {-1, -1, {0}, {0}};
    int n = 1 << m, k = ref_k(r, m);
    for (unsigned long w = 0; w < 1ul << k; w++) {
        uint8_t bits[REF_N], x[REF_N];
        for (int i = 0; i < k; i++) bits[i] = (uint8_t)((w >> i) & 1);
        ref_encode(r, m, bits, x);
        long long p = ref_penalty(n, l, x);
        if (b.least < 0 || p < b.least) {
            b.next = b.least;
            b.least = p;
            memcpy(b.bits, bits, sizeof bits);
            memcpy(b.word, x, sizeof x);
        } else if (b.next < 0 || p < b.next) {
            b.next = p;
        }
    }
    return b;
}

/* smaller size, sign of the product */
static inline long ref_lower(long x, long y) {
    long a = x < 0 ? -x : x, b = y < 0 ? -y : y, s = a < b ? a : b;
    return (x < 0) != (y < 0) ? -s : s;
}

/* the value at index i after the choices u_0 .. u_(i-1) */
static inline long ref_value(int m, const long *l, const uint8_t *u, int i) {
    if (m == 0) return l[0];
    int h = 1 << (m - 1);
    long row[REF_N];
    if (i < h) {
        for (int j = 0; j < h; j++) row[j] = ref_lower(l[j], l[h + j]);
        return ref_value(m - 1, row, u, i);
    }
    uint8_t a[REF_N];
    ref_word(m - 1, u, a);
    for (int j = 0; j < h; j++) row[j] = a[j] == 0 ? l[h + j] + l[j] : l[h + j] - l[j];
    return ref_value(m - 1, row, u + h, i - h);
}

/* the quick reading: each index takes the bit that its value speaks for, a frozen one 0 */
static inline void ref_quick(int r, int m, const int16_t *readings, uint8_t *bits, uint8_t *word) {
    long l[REF_N];
    uint8_t u[REF_N];
    int n = 1 << m;
    for (int j = 0; j < n; j++) l[j] = readings[j];
    for (int i = 0; i < n; i++) u[i] = ref_is_information(r, m, i) && ref_value(m, l, u, i) < 0;
    ref_pick(r, m, u, bits);
    ref_word(m, u, word);
}

typedef struct {
    int r, m, held;
    long l[REF_N];
    uint8_t u[REF_N], best[REF_N], second[REF_N];
    long long best_penalty, second_penalty;
    unsigned long long visits, limit;
    int out, met_zero;
} ref_walk_t;

static inline void ref_walk_from(ref_walk_t *w, int i, long long p);

static inline void ref_extend(ref_walk_t *w, int i, long v, int bit, long long p) {
    if (w->out) return;
    if (w->visits == w->limit) {
        w->out = 1;
        return;
    }
    w->visits++;
    if (v > 0 && bit == 1) p += v;
    if (v < 0 && bit == 0) p += -v;
    if (w->held == 2 && p >= w->second_penalty) return;
    w->u[i] = (uint8_t)bit;
    ref_walk_from(w, i + 1, p);
}

static inline void ref_walk_from(ref_walk_t *w, int i, long long p) {
    int n = 1 << w->m;
    if (i == n) {
        if (w->held == 0 || p < w->best_penalty) {
            memcpy(w->second, w->best, REF_N);
            w->second_penalty = w->best_penalty;
            memcpy(w->best, w->u, REF_N);
            w->best_penalty = p;
        } else {
            memcpy(w->second, w->u, REF_N);
            w->second_penalty = p;
        }
        if (w->held < 2) w->held++;
        return;
    }
    long v = ref_value(w->m, w->l, w->u, i);
    if (!ref_is_information(w->r, w->m, i)) {
        ref_extend(w, i, v, 0, p);
        return;
    }
    if (v == 0) w->met_zero = 1;
    int first = v < 0;
    ref_extend(w, i, v, first, p);
    ref_extend(w, i, v, 1 - first, p);
}

/* the walk within a limit of visits; the best word is ref_word of `best` */
static inline void ref_walk(ref_walk_t *w, int r, int m, const int16_t *readings,
                            unsigned long long limit) {
    memset(w, 0, sizeof *w);
    w->r = r;
    w->m = m;
    w->limit = limit;
    for (int j = 0; j < 1 << m; j++) w->l[j] = readings[j];
    ref_walk_from(w, 0, 0);
}

/* the whole tree: the sum over i of 2 to the number of information indices up to i; at most 2^62,
 * else that */
static inline unsigned long long ref_tree(int r, int m) {
    unsigned long long t = 0, paths = 1;
    for (int i = 0; i < 1 << m; i++) {
        if (ref_is_information(r, m, i)) paths *= 2;
        t += paths;
        if (t >> 61) return 1ull << 62;
    }
    return t;
}

#endif
