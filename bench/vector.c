/* Encode, quick reading, search and first-order words in C that is written to be compiled to vector
 * code, without intrinsics: loops of known steps over rows, no branch in a row, eight bits of a
 * word in one number, small rows straight. The memory rule is the library's: 255 running sums, the
 * top row read from the readings. For measuring beside it. */
#include "vector.h"
#include <string.h>

#define WEIGHTS_4(n) n, n + 1, n + 1, n + 2
#define WEIGHTS_16(n) WEIGHTS_4(n), WEIGHTS_4(n + 1), WEIGHTS_4(n + 1), WEIGHTS_4(n + 2)
#define WEIGHTS_64(n) WEIGHTS_16(n), WEIGHTS_16(n + 1), WEIGHTS_16(n + 1), WEIGHTS_16(n + 2)
static const uint8_t vector_weights[256] = {WEIGHTS_64(0), WEIGHTS_64(1), WEIGHTS_64(1),
                                            WEIGHTS_64(2)};

static const uint16_t vector_dimensions[9][9] = {
    {1},
    {1, 2},
    {1, 3, 4},
    {1, 4, 7, 8},
    {1, 5, 11, 15, 16},
    {1, 6, 16, 26, 31, 32},
    {1, 7, 22, 42, 57, 63, 64},
    {1, 8, 29, 64, 99, 120, 127, 128},
    {1, 9, 37, 93, 163, 219, 247, 255, 256},
};

static void vector_kinds(uint32_t r, uint32_t m, uint8_t *restrict kinds) {
    uint8_t need = (uint8_t)(m - r);
    for (size_t i = 0; i < (size_t)1 << m; i++) kinds[i] = vector_weights[i] >= need;
}

/* ---- the transform */
static inline __attribute__((always_inline)) void vector_layer(uint8_t *x, size_t n, size_t h) {
    for (size_t s = 0; s < n; s += 2 * h)
        for (size_t j = 0; j < h; j++) x[s + j] ^= x[s + h + j];
}

static void vector_transform(uint8_t *x, size_t n) {
    if (n < 8) {
        if (n > 1) vector_layer(x, n, 1);
        if (n > 2) vector_layer(x, n, 2);
        return;
    }
    for (size_t s = 0; s < n; s += 8) {
        uint64_t v;
        memcpy(&v, x + s, 8);
        v ^= v >> 8 & 0x00ff00ff00ff00ffu;
        v ^= v >> 16 & 0x0000ffff0000ffffu;
        v ^= v >> 32;
        memcpy(x + s, &v, 8);
    }
    if (n > 8) vector_layer(x, n, 8);
    if (n > 16) vector_layer(x, n, 16);
    if (n > 32) vector_layer(x, n, 32);
    if (n > 64) vector_layer(x, n, 64);
    if (n > 128) vector_layer(x, n, 128);
}

static inline void vector_fold(uint8_t *x, size_t h) {
    for (size_t j = 0; j < h; j++) x[j] ^= x[h + j];
}

/* ---- encode */
static int vector_bits_ok(const uint8_t *bits, size_t n) {
    uint8_t most = 0;
    for (size_t i = 0; i < n; i++) most = bits[i] > most ? bits[i] : most;
    return most < 2;
}

static int vector_readings_ok(const int16_t *l, size_t n) {
    int bad = 0;
    for (size_t i = 0; i < n; i++) bad |= l[i] < -32767; /* 16 bits hold nothing above 32,767 */
    return !bad;
}

static void vector_fill(const uint8_t *kinds, const uint8_t *bits, uint8_t *row, size_t n) {
    size_t at = 0;
    for (size_t i = 0; i < n; i++) row[i] = kinds[i] ? bits[at++] : 0;
}

/* eight indices at a time: how many ones an index of three bits still needs */
static void vector_fill_eights(uint8_t need, const uint8_t *bits, uint8_t *row, size_t n) {
    for (size_t s = 0; s < n; s += 8) {
        int left = need - vector_weights[s / 8];
        if (left <= 0) {
            memcpy(row + s, bits, 8);
            bits += 8;
        } else if (left == 1) {
            row[s] = 0;
            memcpy(row + s + 1, bits, 7);
            bits += 7;
        } else if (left == 2) {
            row[s] = row[s + 1] = row[s + 2] = row[s + 4] = 0;
            row[s + 3] = bits[0];
            row[s + 5] = bits[1];
            row[s + 6] = bits[2];
            row[s + 7] = bits[3];
            bits += 4;
        } else {
            memset(row + s, 0, 8);
            if (left == 3) row[s + 7] = *bits++;
        }
    }
}

int vector_encode(uint32_t r, uint32_t m, const uint8_t *bits, size_t k, uint8_t *word, size_t w) {
    if (m > 8 || r > m) return 1;
    size_t n = (size_t)1 << m;
    if (k != vector_dimensions[m][r]) return 2;
    if (w != n) return 3;
    if (!vector_bits_ok(bits, k)) return 4;
    if (m < 3) {
        uint8_t kinds[256];
        vector_kinds(r, m, kinds);
        vector_fill(kinds, bits, word, n);
    } else {
        vector_fill_eights((uint8_t)(m - r), bits, word, n);
    }
    vector_transform(word, n);
    return 0;
}

/* the frozen indices are looked at before a bit is written */
int vector_inverse(uint32_t r, uint32_t m, const uint8_t *word, size_t w, uint8_t *bits, size_t k) {
    uint8_t kinds[256], u[256], wrong = 0;
    if (m > 8 || r > m) return 1;
    size_t n = (size_t)1 << m, at = 0;
    if (w != n) return 2;
    if (k != vector_dimensions[m][r]) return 3;
    if (!vector_bits_ok(word, n)) return 4;
    vector_kinds(r, m, kinds);
    memcpy(u, word, n);
    vector_transform(u, n);
    for (size_t i = 0; i < n; i++) wrong |= (uint8_t)(u[i] & !kinds[i]);
    if (wrong) return 5;
    if (n < 8) {
        for (size_t i = 0; i < n; i++)
            if (kinds[i]) bits[at++] = u[i];
        return 0;
    }
    for (size_t s = 0; s < n; s += 8) {
        int left = (int)(m - r) - vector_weights[s / 8];
        if (left <= 0) {
            memcpy(bits + at, u + s, 8);
            at += 8;
        } else if (left == 1) {
            memcpy(bits + at, u + s + 1, 7);
            at += 7;
        } else if (left == 2) {
            bits[at] = u[s + 3];
            bits[at + 1] = u[s + 5];
            bits[at + 2] = u[s + 6];
            bits[at + 3] = u[s + 7];
            at += 4;
        } else if (left == 3) {
            bits[at++] = u[s + 7];
        }
    }
    return 0;
}

/* ---- rows: the row of n sums is at rows + n */
static inline int32_t vector_lower(int32_t x, int32_t y) {
    int32_t least = x < y ? x : y, most = x < y ? y : x;
    return least > -most ? least : -most;
}

static inline int32_t vector_upper(int32_t x, int32_t y, uint8_t a) {
    int32_t sign = -(int32_t)a;
    return y + ((x ^ sign) - sign);
}

static inline __attribute__((always_inline)) void vector_lower_row(const int32_t *restrict from,
                                                                   int32_t *restrict to, size_t h) {
    for (size_t j = 0; j < h; j++) to[j] = vector_lower(from[j], from[h + j]);
}

static inline __attribute__((always_inline)) void vector_upper_row(const int32_t *restrict from,
                                                                   int32_t *restrict to,
                                                                   const uint8_t *restrict word,
                                                                   size_t h) {
    for (size_t j = 0; j < h; j++) to[j] = vector_upper(from[j], from[h + j], word[j]);
}

static void vector_lower_top(const int16_t *restrict l, int32_t *restrict to, size_t h) {
    for (size_t j = 0; j < h; j++) to[j] = vector_lower(l[j], l[h + j]);
}

static void vector_upper_top(const int16_t *restrict l, int32_t *restrict to,
                             const uint8_t *restrict word, size_t h) {
    for (size_t j = 0; j < h; j++) to[j] = vector_upper(l[j], l[h + j], word[j]);
}

/* ---- quick reading */
static void vector_quick_row(int32_t *rows, const uint8_t *kinds, uint8_t *word, size_t n) {
    if (n == 1) {
        word[0] = kinds[0] & (rows[1] < 0);
        return;
    }
    if (n == 2) {
        int32_t x = rows[2], y = rows[3];
        uint8_t a = kinds[0] & (vector_lower(x, y) < 0), b = kinds[1] & (vector_upper(x, y, a) < 0);
        word[0] = a ^ b;
        word[1] = b;
        return;
    }
    size_t h = n / 2;
    vector_lower_row(rows + n, rows + h, h);
    vector_quick_row(rows, kinds, word, h);
    vector_upper_row(rows + n, rows + h, word, h);
    vector_quick_row(rows, kinds + h, word + h, h);
    vector_fold(word, h);
}

static void vector_take_bits(const uint8_t *kinds, const uint8_t *word, size_t n, uint8_t *bits) {
    uint8_t u[256];
    size_t at = 0;
    memcpy(u, word, n);
    vector_transform(u, n);
    for (size_t i = 0; i < n; i++)
        if (kinds[i]) bits[at++] = u[i];
}

int vector_quick(uint32_t r, uint32_t m, const int16_t *l, size_t ll, uint8_t *bits, size_t k,
                 uint8_t *word, size_t w, uint32_t *penalty) {
    uint8_t kinds[256];
    int32_t rows[256] = {0};
    if (m > 8 || r > m) return 1;
    size_t n = (size_t)1 << m;
    if (ll != n) return 2;
    if (k != vector_dimensions[m][r] || w != n) return 3;
    if (!vector_readings_ok(l, n)) return 4;
    vector_kinds(r, m, kinds);
    if (n == 1) {
        word[0] = kinds[0] & (l[0] < 0);
    } else {
        size_t h = n / 2;
        vector_lower_top(l, rows + h, h);
        vector_quick_row(rows, kinds, word, h);
        vector_upper_top(l, rows + h, word, h);
        vector_quick_row(rows, kinds + h, word + h, h);
        vector_fold(word, h);
    }
    vector_take_bits(kinds, word, n, bits);
    int32_t p = 0;
    for (size_t j = 0; j < n; j++) {
        int32_t x = word[j] ? l[j] : -l[j];
        p += x > 0 ? x : 0;
    }
    *penalty = (uint32_t)p;
    return 0;
}

/* ---- search: the path holds the bits u; the rows are those of index `at` */
typedef struct {
    const int16_t *l;
    const uint8_t *kinds;
    size_t n, at;
    uint32_t allowed, held, best_penalty, second_penalty, visits;
    int out;
    int32_t rows[256];
    uint8_t path[256], best[256];
} vector_memory;

/* the word of the h bits of the path from s on */
static inline __attribute__((always_inline)) void vector_word(const uint8_t *path, size_t s,
                                                              size_t h, uint8_t *word) {
    memcpy(word, path + s, h);
    vector_transform(word, h);
}

/* makes the row of h sums, of the block of h indices that holds i, from the row of 2h */
static inline __attribute__((always_inline)) void vector_make_row(vector_memory *m, size_t i,
                                                                  size_t h) {
    uint8_t word[128];
    int32_t *to = m->rows + h;
    const int32_t *from = m->rows + 2 * h;
    size_t start = i & ~(2 * h - 1);
    if (2 * h == m->n) {
        if (i & h) {
            vector_word(m->path, start, h, word);
            vector_upper_top(m->l, to, word, h);
        } else {
            vector_lower_top(m->l, to, h);
        }
    } else if (i & h) {
        vector_word(m->path, start, h, word);
        vector_upper_row(from, to, word, h);
    } else {
        vector_lower_row(from, to, h);
    }
}

/* the value at index i: only rows of blocks that do not hold both i and the index before, or that
 * start at i, are made */
static int32_t vector_value(vector_memory *m, size_t i, int all) {
    if (m->n == 1) return m->l[0];
    size_t differ = m->at ^ i, low = i & -i, h = m->n / 2;
    if (!all) {
        size_t top = differ > low ? differ : low;
        while (h > top) h /= 2;
    }
    m->at = i;
    for (; h > 4; h /= 2) vector_make_row(m, i, h);
    if (h == 4) vector_make_row(m, i, 4);
    if (h >= 2) vector_make_row(m, i, 2);
    vector_make_row(m, i, 1);
    return m->rows[1];
}

static void vector_hold(vector_memory *m, uint32_t p) {
    if (m->held == 0 || p < m->best_penalty) {
        if (m->held) m->second_penalty = m->best_penalty;
        m->held += m->held < 2;
        m->best_penalty = p;
        memcpy(m->best, m->path, m->n);
    } else {
        m->second_penalty = p;
        m->held = 2;
    }
}

static int vector_dropped(vector_memory *m, uint32_t p) {
    return m->held == 2 && m->second_penalty <= p;
}

static void vector_step(vector_memory *m, size_t i, uint32_t p) {
    for (;; i++) {
        if (i == m->n) {
            vector_hold(m, p);
            return;
        }
        int32_t v = vector_value(m, i, i == 0);
        if (m->visits == m->allowed) {
            m->out = 1;
            return;
        }
        m->visits++;
        if (m->kinds[i]) {
            uint8_t first = v < 0;
            uint32_t q = p + (uint32_t)(v < 0 ? -v : v);
            m->path[i] = first;
            if (!vector_dropped(m, p)) vector_step(m, i + 1, p);
            if (m->out) return;
            if (m->visits == m->allowed) {
                m->out = 1;
                return;
            }
            m->visits++;
            m->path[i] = 1 - first;
            p = q;
        } else {
            m->path[i] = 0;
            if (v < 0) p += (uint32_t)-v;
        }
        if (vector_dropped(m, p)) return;
    }
}

int vector_search(uint32_t r, uint32_t m, uint32_t allowed, const int16_t *l, size_t ll,
                  uint8_t *bits, size_t k, uint8_t *word, size_t w, vector_end *end) {
    uint8_t kinds[256];
    vector_memory memory;
    if (m > 8 || r > m) return 1;
    size_t n = (size_t)1 << m;
    if (ll != n) return 2;
    if (k != vector_dimensions[m][r] || w != n) return 3;
    if (!vector_readings_ok(l, n)) return 4;
    vector_kinds(r, m, kinds);
    memset(&memory, 0, sizeof memory);
    memory.l = l;
    memory.kinds = kinds;
    memory.n = n;
    memory.allowed = allowed;
    vector_step(&memory, 0, 0);
    end->best = memory.best_penalty;
    end->second = memory.second_penalty;
    end->visits = memory.visits;
    if (memory.out) return 6;
    if (memory.best_penalty == memory.second_penalty) return 7;
    memcpy(word, memory.best, n);
    vector_transform(word, n);
    size_t at = 0;
    for (size_t i = 0; i < n; i++)
        if (kinds[i]) bits[at++] = memory.best[i];
    return 0;
}

/* ---- first-order words: the transform, two layers at a time */
static inline __attribute__((always_inline)) void vector_cross(int32_t *x, size_t n, size_t h) {
    for (size_t s = 0; s < n; s += 2 * h)
        for (size_t j = 0; j < h; j++) {
            int32_t *y = x + s + j, a = y[0], b = y[h];
            y[0] = a + b;
            y[h] = a - b;
        }
}

static inline __attribute__((always_inline)) void vector_cross_twice(int32_t *x, size_t n,
                                                                     size_t h) {
    for (size_t s = 0; s < n; s += 4 * h)
        for (size_t j = 0; j < h; j++) {
            int32_t *y = x + s + j, a = y[0] + y[h], b = y[0] - y[h], c = y[2 * h] + y[3 * h],
                    d = y[2 * h] - y[3 * h];
            y[0] = a + c;
            y[h] = b + d;
            y[2 * h] = a - c;
            y[3 * h] = b - d;
        }
}

static void vector_hadamard(int32_t *x, size_t n) {
    if (n == 2) vector_cross(x, n, 1);
    if (n > 2) vector_cross_twice(x, n, 1);
    if (n == 8) vector_cross(x, n, 4);
    if (n > 8) vector_cross_twice(x, n, 4);
    if (n == 32) vector_cross(x, n, 16);
    if (n > 32) vector_cross_twice(x, n, 16);
    if (n == 128) vector_cross(x, n, 64);
    if (n > 128) vector_cross_twice(x, n, 64);
}

static inline uint32_t vector_size(int32_t x) { return (uint32_t)(x < 0 ? -x : x); }

/* the word of a place by doubling, and its bits */
static void vector_put(uint32_t m, size_t place, uint8_t sign, uint8_t *restrict bits,
                       uint8_t *restrict word) {
    uint8_t last = sign;
    word[0] = sign;
    for (uint32_t p = 0; p < m; p++) {
        uint8_t bit = place >> p & 1;
        size_t h = (size_t)1 << p;
        for (size_t j = 0; j < h; j++) word[h + j] = word[j] ^ bit;
        bits[m - 1 - p] = bit;
        last ^= bit;
    }
    bits[m] = last;
}

/* a size and its place in one number: 256 times the size, plus the place */
int vector_first_order(uint32_t m, const int16_t *l, size_t ll, uint8_t *bits, size_t k,
                       uint8_t *word, size_t w, vector_end *end) {
    int32_t x[256];
    uint32_t sum = 0, best = 0, second = 0;
    if (m > 8 || m < 1) return 1;
    size_t n = (size_t)1 << m;
    if (ll != n) return 2;
    if (k != m + 1 || w != n) return 3;
    if (!vector_readings_ok(l, n)) return 4;
    for (size_t j = 0; j < n; j++) x[j] = l[j];
    for (size_t j = 0; j < n; j++) sum += vector_size(l[j]);
    vector_hadamard(x, n);
    for (uint32_t j = 0; j < n; j++) {
        uint32_t key = vector_size(x[j]) * 256 + j;
        best = key > best ? key : best;
    }
    size_t place = best % 256;
    uint8_t sign = x[place] < 0;
    best /= 256;
    x[place] = 0;
    for (size_t j = 0; j < n; j++) second = vector_size(x[j]) > second ? vector_size(x[j]) : second;
    end->best = (sum - best) / 2;
    end->second = (sum - second) / 2;
    end->visits = 0;
    if (best == second) return 7;
    vector_put(m, place, sign, bits, word);
    return 0;
}
