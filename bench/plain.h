/* Encode, quick reading and search in plain C, as one would write them without proofs: the same
 * recursions and the same memory rule (255 running sums, the top row read from the readings) as the
 * library. For measuring beside it. */
#ifndef PLAIN_H
#define PLAIN_H

#include <stdint.h>
#include <string.h>

static int plain_kinds(uint32_t r, uint32_t m, uint8_t *kinds) {
    int k = 0;
    for (uint32_t i = 0; i < 1u << m; i++) {
        kinds[i] = m - r <= (uint32_t)__builtin_popcount(i);
        k += kinds[i];
    }
    return k;
}

static void plain_fold(uint8_t *x, size_t h) {
    for (size_t j = 0; j < h; j++) x[j] ^= x[h + j];
}

static void plain_transform(uint8_t *x, size_t n) {
    if (n == 1) return;
    size_t h = n / 2;
    plain_transform(x, h);
    plain_transform(x + h, h);
    plain_fold(x, h);
}

static int plain_bits_ok(const uint8_t *bits, size_t n) {
    for (size_t i = 0; i < n; i++)
        if (bits[i] > 1) return 0;
    return 1;
}

static int plain_readings_ok(const int16_t *l, size_t n) {
    for (size_t i = 0; i < n; i++)
        if (l[i] < -32767) return 0; /* 16 bits hold nothing above 32,767 */
    return 1;
}

static int plain_encode(uint32_t r, uint32_t m, const uint8_t *bits, size_t k, uint8_t *word,
                        size_t w) {
    uint8_t kinds[256];
    if (m > 8 || r > m) return 1;
    size_t n = (size_t)1 << m;
    if (k != (size_t)plain_kinds(r, m, kinds)) return 2;
    if (w != n) return 3;
    if (!plain_bits_ok(bits, k)) return 4;
    size_t at = 0;
    for (size_t i = 0; i < n; i++) word[i] = kinds[i] ? bits[at++] : 0;
    plain_transform(word, n);
    return 0;
}

static int plain_inverse(uint32_t r, uint32_t m, const uint8_t *word, size_t w, uint8_t *bits,
                         size_t k) {
    uint8_t kinds[256], u[256];
    if (m > 8 || r > m) return 1;
    size_t n = (size_t)1 << m;
    if (w != n) return 2;
    if (k != (size_t)plain_kinds(r, m, kinds)) return 3;
    if (!plain_bits_ok(word, n)) return 4;
    memcpy(u, word, n);
    plain_transform(u, n);
    for (size_t i = 0; i < n; i++)
        if (!kinds[i] && u[i]) return 5;
    size_t at = 0;
    for (size_t i = 0; i < n; i++)
        if (kinds[i]) bits[at++] = u[i];
    return 0;
}

static inline int32_t plain_lower(int32_t x, int32_t y) {
    int32_t a = x < 0 ? -x : x, b = y < 0 ? -y : y, s = a < b ? a : b;
    return (x < 0) == (y < 0) ? s : -s;
}

static inline int32_t plain_upper(int32_t x, int32_t y, uint8_t a) {
    return a == 0 ? y + x : y - x;
}

/* the row of 2h sums is at rows + 2h, the half's row goes to rows + h */
static void plain_lower_row(int32_t *restrict rows, size_t h) {
    for (size_t j = 0; j < h; j++) rows[h + j] = plain_lower(rows[2 * h + j], rows[3 * h + j]);
}

static void plain_upper_row(int32_t *restrict rows, size_t h, const uint8_t *restrict word) {
    for (size_t j = 0; j < h; j++)
        rows[h + j] = plain_upper(rows[2 * h + j], rows[3 * h + j], word[j]);
}

static void plain_lower_top(const int16_t *restrict l, int32_t *restrict rows, size_t h) {
    for (size_t j = 0; j < h; j++) rows[h + j] = plain_lower(l[j], l[h + j]);
}

static void plain_upper_top(const int16_t *restrict l, int32_t *restrict rows, size_t h,
                            const uint8_t *restrict word) {
    for (size_t j = 0; j < h; j++) rows[h + j] = plain_upper(l[j], l[h + j], word[j]);
}

static void plain_quick_row(int32_t *rows, const uint8_t *kinds, uint8_t *word, size_t n) {
    if (n == 1) {
        word[0] = kinds[0] && rows[1] < 0;
        return;
    }
    size_t h = n / 2;
    plain_lower_row(rows, h);
    plain_quick_row(rows, kinds, word, h);
    plain_upper_row(rows, h, word);
    plain_quick_row(rows, kinds + h, word + h, h);
    plain_fold(word, h);
}

static void plain_take_bits(const uint8_t *kinds, const uint8_t *word, size_t n, uint8_t *bits) {
    uint8_t u[256];
    memcpy(u, word, n);
    plain_transform(u, n);
    size_t at = 0;
    for (size_t i = 0; i < n; i++)
        if (kinds[i]) bits[at++] = u[i];
}

static int plain_quick(uint32_t r, uint32_t m, const int16_t *l, size_t ll, uint8_t *bits, size_t k,
                       uint8_t *word, size_t w, uint32_t *penalty) {
    uint8_t kinds[256];
    int32_t rows[256] = {0};
    if (m > 8 || r > m) return 1;
    size_t n = (size_t)1 << m;
    if (ll != n) return 2;
    if (k != (size_t)plain_kinds(r, m, kinds) || w != n) return 3;
    if (!plain_readings_ok(l, n)) return 4;
    if (n == 1) {
        word[0] = kinds[0] && l[0] < 0;
    } else {
        size_t h = n / 2;
        plain_lower_top(l, rows, h);
        plain_quick_row(rows, kinds, word, h);
        plain_upper_top(l, rows, h, word);
        plain_quick_row(rows, kinds + h, word + h, h);
        plain_fold(word, h);
    }
    plain_take_bits(kinds, word, n, bits);
    uint32_t p = 0;
    for (size_t j = 0; j < n; j++) {
        int32_t x = l[j];
        p += (uint32_t)(word[j] ? (x > 0 ? x : 0) : (x < 0 ? -x : 0));
    }
    *penalty = p;
    return 0;
}

typedef struct {
    uint32_t held, best, second, visits;
    int out;
} plain_state;

/* makes all rows below the row of n sums, for index i of its block */
static void plain_make_rows(int32_t *rows, const uint8_t *half, size_t n, size_t i) {
    for (size_t h = n / 2; h > 0; h /= 2) {
        if (i < h) {
            plain_lower_row(rows, h);
        } else {
            plain_upper_row(rows, h, half);
            half += h;
            i -= h;
        }
    }
}

/* the value at index i of the path; where fresh the rows are those of the index before, and only
 * those of blocks that start at i change */
static int32_t plain_value(const int16_t *l, int32_t *rows, const uint8_t *half, size_t n,
                           int fresh, size_t i) {
    if (n == 1) return l[0];
    if (fresh && i > 0) {
        size_t h = i & -i;
        if (2 * h == n)
            plain_upper_top(l, rows, h, half);
        else
            plain_upper_row(rows, h, half + i - h);
        for (h /= 2; h > 0; h /= 2) plain_lower_row(rows, h);
        return rows[1];
    }
    size_t h = n / 2;
    if (i < h) {
        plain_lower_top(l, rows, h);
        plain_make_rows(rows, half, h, i);
    } else {
        plain_upper_top(l, rows, h, half);
        plain_make_rows(rows, half + h, h, i - h);
    }
    return rows[1];
}

static void plain_put(uint8_t *half, size_t i, uint8_t bit) {
    half[i] = bit;
    for (size_t h = 1; ((i + 1) & (2 * h - 1)) == 0; h *= 2) plain_fold(half + i + 1 - 2 * h, h);
}

static void plain_take_back(uint8_t *half, size_t i) {
    size_t h = 1;
    while (((i + 1) & (2 * h - 1)) == 0) h *= 2;
    for (; h > 1; h /= 2) plain_fold(half + i + 1 - h, h / 2);
}

typedef struct {
    const int16_t *l;
    const uint8_t *kinds;
    size_t n;
    uint32_t allowed;
    int32_t rows[256];
    uint8_t half[256], best[256], second[256];
} plain_memory;

static plain_state plain_info_step(plain_memory *m, int fresh, size_t i, uint32_t p, plain_state s);

static plain_state plain_step(plain_memory *m, int fresh, size_t i, uint32_t p, plain_state s) {
    if (i == m->n) {
        if (s.held == 0) {
            memcpy(m->best, m->half, m->n);
            s.best = p;
            s.held = 1;
        } else if (p < s.best) {
            memcpy(m->second, m->best, m->n);
            memcpy(m->best, m->half, m->n);
            s.second = s.best;
            s.best = p;
            s.held = 2;
        } else {
            memcpy(m->second, m->half, m->n);
            s.second = p;
            s.held = 2;
        }
        return s;
    }
    if (m->kinds[i]) return plain_info_step(m, fresh, i, p, s);
    int32_t v = plain_value(m->l, m->rows, m->half, m->n, fresh, i);
    if (s.visits == m->allowed) {
        s.out = 1;
        return s;
    }
    s.visits++;
    if (v < 0) p += (uint32_t)-v;
    if (s.held == 2 && s.second <= p) return s;
    plain_put(m->half, i, 0);
    s = plain_step(m, 1, i + 1, p, s);
    plain_take_back(m->half, i);
    return s;
}

static plain_state plain_info_step(plain_memory *m, int fresh, size_t i, uint32_t p,
                                   plain_state s) {
    int32_t v = plain_value(m->l, m->rows, m->half, m->n, fresh, i);
    uint8_t first = v < 0;
    uint32_t q = p + (uint32_t)(v < 0 ? -v : v);
    if (s.visits == m->allowed) {
        s.out = 1;
        return s;
    }
    s.visits++;
    if (!(s.held == 2 && s.second <= p)) {
        plain_put(m->half, i, first);
        s = plain_step(m, 1, i + 1, p, s);
        plain_take_back(m->half, i);
        if (s.out) return s;
    }
    if (s.visits == m->allowed) {
        s.out = 1;
        return s;
    }
    s.visits++;
    if (s.held == 2 && s.second <= q) return s;
    plain_put(m->half, i, 1 - first);
    s = plain_step(m, 0, i + 1, q, s);
    plain_take_back(m->half, i);
    return s;
}

static int plain_search(uint32_t r, uint32_t m, uint32_t allowed, const int16_t *l, size_t ll,
                        uint8_t *bits, size_t k, uint8_t *word, size_t w, plain_state *end) {
    uint8_t kinds[256];
    plain_memory memory;
    if (m > 8 || r > m) return 1;
    size_t n = (size_t)1 << m;
    if (ll != n) return 2;
    if (k != (size_t)plain_kinds(r, m, kinds) || w != n) return 3;
    if (!plain_readings_ok(l, n)) return 4;
    memory.l = l;
    memory.kinds = kinds;
    memory.n = n;
    memory.allowed = allowed;
    memset(memory.rows, 0, sizeof memory.rows);
    memset(memory.half, 0, sizeof memory.half);
    memset(memory.best, 0, sizeof memory.best);
    memset(memory.second, 0, sizeof memory.second);
    plain_state s = {0, 0, 0, 0, 0};
    s = plain_step(&memory, 0, 0, 0, s);
    *end = s;
    if (s.out) return 6;
    if (s.best == s.second) return 7;
    memcpy(word, memory.best, n);
    plain_take_bits(kinds, word, n, bits);
    return 0;
}

/* ---- first-order words */
static void plain_hadamard(int32_t *x, size_t n) {
    if (n == 1) return;
    size_t h = n / 2;
    for (size_t j = 0; j < h; j++) {
        int32_t a = x[j], b = x[h + j];
        x[j] = a + b;
        x[h + j] = a - b;
    }
    plain_hadamard(x, h);
    plain_hadamard(x + h, h);
}

static uint32_t plain_size(int32_t x) { return (uint32_t)(x < 0 ? -x : x); }

/* of s the least penalty and the next; the word of place p has bit j of the digits that p and j
 * share */
static int plain_first_order(uint32_t m, const int16_t *l, size_t ll, uint8_t *bits, size_t k,
                             uint8_t *word, size_t w, plain_state *s) {
    int32_t x[256];
    uint32_t sum = 0, best = 0, second = 0;
    size_t n = (size_t)1 << m, place = 0;
    if (m > 8 || m < 1) return 1;
    if (ll != n) return 2;
    if (k != m + 1 || w != n) return 3;
    if (!plain_readings_ok(l, n)) return 4;
    for (size_t j = 0; j < n; j++) {
        x[j] = l[j];
        sum += plain_size(l[j]);
    }
    plain_hadamard(x, n);
    for (size_t j = 0; j < n; j++) {
        uint32_t size = plain_size(x[j]);
        if (j == 0 || size > best) {
            second = best;
            best = size;
            place = j;
        } else if (size > second) {
            second = size;
        }
    }
    s->best = (sum - best) / 2;
    s->second = (sum - second) / 2;
    s->visits = 0;
    if (best == second) return 7;
    uint8_t sign = x[place] < 0;
    for (size_t j = 0; j < n; j++)
        word[j] = (uint8_t)(__builtin_parity((unsigned)(place & j)) ^ sign);
    for (uint32_t i = 0; i < m; i++) bits[i] = place >> (m - 1 - i) & 1;
    bits[m] = (uint8_t)(__builtin_parity((unsigned)place) ^ sign);
    return 0;
}

#endif
