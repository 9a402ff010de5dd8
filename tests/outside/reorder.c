/* Position orders: all tables of m = 3 with all rows, random maps for every m, products, undo maps,
 * the search on both sides, and refusals with several faults at once. The reference works position
 * by position and undoes a table by elimination; the library does neither. */
#include "call.h"
#include "check.h"
#include "reference.h"

/* a map as the calls take it, with one byte more so that a length can be off */
typedef struct {
    int m;
    uint8_t table[65], row[9];
} map;

static guarded first, second;

/* ---- the reference */
static int bit(int x, int p) { return x >> p & 1; }

/* A·j + b, bit by bit */
static int image(const map *a, int j) {
    int x = 0;
    for (int p = 0; p < a->m; p++) {
        int sum = a->row[p];
        for (int q = 0; q < a->m; q++) sum += a->table[p * a->m + q] * bit(j, q);
        x |= (sum & 1) << p;
    }
    return x;
}

static map identity(int m) {
    map a = {.m = m};
    for (int p = 0; p < m; p++) a.table[p * m + p] = 1;
    return a;
}

/* (A1·A2, A1·b2 + b1) by rows and columns */
static map product(const map *a, const map *b) {
    int m = a->m;
    map c = {.m = m};
    for (int p = 0; p < m; p++) {
        int sum = a->row[p];
        for (int k = 0; k < m; k++) sum += a->table[p * m + k] * b->row[k];
        c.row[p] = (uint8_t)(sum & 1);
        for (int q = 0; q < m; q++) {
            sum = 0;
            for (int k = 0; k < m; k++) sum += a->table[p * m + k] * b->table[k * m + q];
            c.table[p * m + q] = (uint8_t)(sum & 1);
        }
    }
    return c;
}

/* by elimination; 0 where the table is singular */
static int undone(const map *a, map *u) {
    int m = a->m;
    uint8_t left[64];
    map right = identity(m);
    memcpy(left, a->table, 64);
    for (int c = 0; c < m; c++) {
        int pivot = c;
        while (pivot < m && !left[pivot * m + c]) pivot++;
        if (pivot == m) return 0;
        for (int q = 0; q < m; q++) {
            uint8_t x = left[c * m + q], y = right.table[c * m + q];
            left[c * m + q] = left[pivot * m + q], left[pivot * m + q] = x;
            right.table[c * m + q] = right.table[pivot * m + q], right.table[pivot * m + q] = y;
        }
        for (int p = 0; p < m; p++)
            if (p != c && left[p * m + c])
                for (int q = 0; q < m; q++)
                    left[p * m + q] ^= left[c * m + q],
                        right.table[p * m + q] ^= right.table[c * m + q];
    }
    *u = right;
    for (int p = 0; p < m; p++) {
        int sum = 0;
        for (int q = 0; q < m; q++) sum += right.table[p * m + q] * a->row[q];
        u->row[p] = (uint8_t)(sum & 1);
    }
    return 1;
}

static map random_map(int m) {
    map a = {.m = m};
    for (int i = 0; i < m * m; i++) a.table[i] = (uint8_t)random_below(2);
    for (int p = 0; p < m; p++) a.row[p] = (uint8_t)random_below(2);
    return a;
}

/* one that can be undone: few random tables of m = 8 are singular, but some are */
static map good_map(int m) {
    map a, u;
    do a = random_map(m);
    while (!undone(&a, &u));
    return a;
}

/* ---- the calls */
static size_t square(const map *a) { return (size_t)(a->m * a->m); }

static answer reorder(uint32_t m, const uint8_t *t, size_t tn, const uint8_t *r, size_t rn,
                      const int16_t *l, size_t n_, int16_t *to, size_t on) {
    CALL(cinorbis_reorder, m, t, tn, r, rn, l, n_, to, on);
}

static answer reorder_word(uint32_t m, const uint8_t *t, size_t tn, const uint8_t *r, size_t rn,
                           const uint8_t *x, size_t n_, uint8_t *to, size_t on) {
    CALL(cinorbis_reorder_word, m, t, tn, r, rn, x, n_, to, on);
}

static answer undo_map(uint32_t m, const uint8_t *t, size_t tn, const uint8_t *r, size_t rn,
                       uint8_t *to, size_t ton, uint8_t *ro, size_t ron) {
    CALL(cinorbis_undo_map, m, t, tn, r, rn, to, ton, ro, ron);
}

static answer product_map(uint32_t m, const map *a, size_t tn, size_t rn, const map *b, size_t tn2,
                          size_t rn2, uint8_t *to, size_t ton, uint8_t *ro, size_t ron) {
    CALL(cinorbis_product_map, m, a->table, tn, a->row, rn, b->table, tn2, b->row, rn2, to, ton, ro,
         ron);
}

/* nothing but a refusal's number and place is reported, and nothing is written */
static void refused(answer a, uint32_t number, size_t place) {
    CHECK(a.refusal == number && a.place == place, "%u at %u, not %u at %zu", a.refusal, a.place,
          number, place);
    CHECK(a.penalty == 0 && a.gap == 0 && a.visits == 0, "%u %u %u", a.penalty, a.gap, a.visits);
    CHECK(untouched(&first) && untouched(&second), "wrote");
}

static void done(answer a) {
    CHECK(a.refusal == 0 && a.place == 0 && a.penalty == 0 && a.gap == 0 && a.visits == 0, "%u %u",
          a.refusal, a.place);
}

static void both_armed(void) {
    arm(&first);
    arm(&second);
}

/* readings and bits in the map's order, with guards; singular tables are refused as 11 */
static void reorders(const map *a) {
    uint32_t m = (uint32_t)a->m;
    size_t n = (size_t)1 << m;
    int16_t l[256], *to = (int16_t *)(void *)contents(&first);
    uint8_t x[256];
    map u;
    int good = undone(a, &u);
    for (size_t j = 0; j < n; j++) l[j] = random_reading(), x[j] = (uint8_t)random_below(2);
    both_armed();
    answer r = reorder(m, a->table, square(a), a->row, m, l, n, to, n);
    if (!good) {
        refused(r, CINORBIS_MAP, 0);
        refused(reorder_word(m, a->table, square(a), a->row, m, x, n, contents(&second), n),
                CINORBIS_MAP, 0);
        return;
    }
    done(r);
    done(reorder_word(m, a->table, square(a), a->row, m, x, n, contents(&second), n));
    int same = 1;
    for (size_t j = 0; j < n; j++) {
        size_t i = (size_t)image(a, (int)j);
        same &= to[j] == l[i] && contents(&second)[j] == x[i];
    }
    CHECK(same, "another order");
    CHECK(only_first(&first, 2 * n) && only_first(&second, n), "wrote outside");
}

/* the call gave this map, and wrote nothing else, or refused where there is none */
static void gives(answer r, const map *made) {
    if (!made) {
        refused(r, CINORBIS_MAP, 0);
        return;
    }
    size_t m = (size_t)made->m;
    done(r);
    CHECK(memcmp(contents(&first), made->table, square(made)) == 0 &&
              memcmp(contents(&second), made->row, m) == 0,
          "another map");
    CHECK(only_first(&first, square(made)) && only_first(&second, m), "wrote outside");
}

/* the undo map is the one that elimination gives, or the map is refused */
static void undoes(const map *a) {
    uint32_t m = (uint32_t)a->m;
    map u;
    int good = undone(a, &u);
    both_armed();
    gives(undo_map(m, a->table, square(a), a->row, m, contents(&first), square(a),
                   contents(&second), m),
          good ? &u : NULL);
}

static void multiplies(const map *a, const map *b) {
    uint32_t m = (uint32_t)a->m;
    map u, v, c = product(a, b);
    int good = undone(a, &u) && undone(b, &v);
    both_armed();
    gives(product_map(m, a, square(a), m, b, square(b), m, contents(&first), square(a),
                      contents(&second), m),
          good ? &c : NULL);
}

/* all 512 tables and 8 rows: 168 × 8 maps can be undone */
static void all_of_three(void) {
    int good = 0;
    map u;
    begin("every table and row of m = 3");
    for (int t = 0; t < 512; t++)
        for (int b = 0; b < 8; b++) {
            map a = {.m = 3}, other = random_map(3);
            for (int i = 0; i < 9; i++) a.table[i] = (uint8_t)bit(t, i);
            for (int p = 0; p < 3; p++) a.row[p] = (uint8_t)bit(b, p);
            good += undone(&a, &u);
            reorders(&a);
            undoes(&a);
            multiplies(&a, &other);
            multiplies(&other, &a);
        }
    CHECK(good == 168 * 8, "%d maps", good);
    end();
}

static void all_of_the_smallest(void) {
    begin("every map of m = 0, 1 and 2");
    for (int m = 0; m <= 2; m++)
        for (int t = 0; t < 1 << m * m; t++)
            for (int b = 0; b < 1 << m; b++) {
                map a = {.m = m}, other = random_map(m);
                for (int i = 0; i < m * m; i++) a.table[i] = (uint8_t)bit(t, i);
                for (int p = 0; p < m; p++) a.row[p] = (uint8_t)bit(b, p);
                reorders(&a);
                undoes(&a);
                multiplies(&a, &other);
            }
    end();
}

static void random_maps(int m) {
    begin("random maps of m = %d", m);
    for (int t = 0; t < 300; t++) {
        map a = t % 3 ? good_map(m) : random_map(m), b = t % 3 ? good_map(m) : random_map(m);
        /* a table with two equal rows, or a row of zeros, is singular */
        if (m > 1 && t % 7 == 0) memcpy(a.table, a.table + m, (size_t)m);
        if (m > 0 && t % 11 == 0) memset(b.table, 0, (size_t)m);
        reorders(&a);
        undoes(&a);
        multiplies(&a, &b);
    }
    end();
}

/* by one and then by another is by the product; by a map and then by its undo map is by none */
static void one_then_another(void) {
    begin("one map and then another, and back");
    for (int t = 0; t < 400; t++) {
        int m = t % 9;
        size_t n = (size_t)1 << m;
        map a = good_map(m), b = good_map(m), c = {.m = m}, u = {.m = m};
        int16_t l[256], x[256], y[256], z[256];
        for (size_t j = 0; j < n; j++) l[j] = random_reading();
        done(reorder((uint32_t)m, a.table, square(&a), a.row, (size_t)m, l, n, x, n));
        done(reorder((uint32_t)m, b.table, square(&b), b.row, (size_t)m, x, n, y, n));
        done(product_map((uint32_t)m, &a, square(&a), (size_t)m, &b, square(&b), (size_t)m, c.table,
                         square(&c), c.row, (size_t)m));
        done(reorder((uint32_t)m, c.table, square(&c), c.row, (size_t)m, l, n, z, n));
        CHECK(memcmp(y, z, 2 * n) == 0, "the product reorders otherwise");
        done(undo_map((uint32_t)m, a.table, square(&a), a.row, (size_t)m, u.table, square(&u),
                      u.row, (size_t)m));
        done(reorder((uint32_t)m, u.table, square(&u), u.row, (size_t)m, x, n, z, n));
        CHECK(memcmp(l, z, 2 * n) == 0, "not restored");
    }
    end();
}

/* a reordered word is a word; the best word of reordered readings is the reordered best word */
static void both_searches(void) {
    begin("the search on both sides");
    for (int t = 0; t < 600; t++) {
        int m = random_between(0, 5), r = random_between(0, m < 3 ? m : 2);
        size_t n = (size_t)1 << m, k = (size_t)ref_k(r, m);
        int size = random_below(3) ? LARGEST : 2;
        map a = good_map(m);
        int16_t l[32], turned[32];
        uint8_t bits[32], word[32], moved[32], bits2[32], word2[32];
        for (size_t j = 0; j < n; j++) l[j] = (int16_t)random_between(-size, size);
        for (size_t j = 0; j < k; j++) bits[j] = (uint8_t)random_below(2);
        CHECK(encode((uint32_t)r, (uint32_t)m, bits, k, word, n).refusal == 0, "encode");
        done(reorder_word((uint32_t)m, a.table, square(&a), a.row, (size_t)m, word, n, moved, n));
        CHECK(inverse((uint32_t)r, (uint32_t)m, moved, n, bits2, k).refusal == 0,
              "a reordered word is no word");
        done(reorder((uint32_t)m, a.table, square(&a), a.row, (size_t)m, l, n, turned, n));
        answer x = search_within((uint32_t)r, (uint32_t)m, UINT32_MAX, l, n, bits, k, word, n);
        answer y =
            search_within((uint32_t)r, (uint32_t)m, UINT32_MAX, turned, n, bits2, k, word2, n);
        CHECK(x.refusal == y.refusal && (x.refusal == 0 || x.refusal == 7), "%u and %u", x.refusal,
              y.refusal);
        CHECK(x.penalty == y.penalty && x.gap == y.gap, "%u %u and %u %u", x.penalty, x.gap,
              y.penalty, y.gap);
        if (x.refusal == 0)
            for (size_t j = 0; j < n; j++)
                CHECK(word2[j] == word[image(&a, (int)j)], "another word at %zu", j);
    }
    end();
}

/* the number that the faults ask for: m, an input's length, an output's length, the map, an entry
 */
static uint32_t expected(int m, int input, int output, int bad_map, int entry) {
    if (m) return 1;
    if (input) return 2;
    if (output) return 3;
    if (bad_map) return CINORBIS_MAP;
    return entry ? 4 : 0;
}

/* 0: none; else a byte above 1 in the table, one in the row, or a singular table */
static map spoilt(map a, int fault) {
    if (fault == 1) a.table[random_below(a.m * a.m)] = (uint8_t)random_between(2, 255);
    if (fault == 2) a.row[random_below(a.m)] = (uint8_t)random_between(2, 255);
    if (fault == 3) memset(a.table, 0, (size_t)a.m);
    return a;
}

static void faults(void) {
    static const uint32_t large[] = {9, 10, 31, 32, 33, 64, 255, 256, 65536, UINT32_MAX};
    begin("every mixture of faults, in their order");
    for (int m = 1; m <= 8; m++)
        for (int mix = 0; mix < 3 * 3 * 3 * 3 * 2 * 4 * 2; mix++) {
            int i = mix;
            int dt = i % 3 - 1, dr = (i /= 3) % 3 - 1, dn = (i /= 3) % 3 - 1,
                dout = (i /= 3) % 3 - 1, code = (i /= 3) % 2;
            int bad = (i /= 2) % 4, entry = i / 4 % 2;
            size_t n = (size_t)1 << m, at = (size_t)random_below((int)n);
            uint32_t M = code ? large[random_below(10)] : (uint32_t)m;
            map a = spoilt(good_map(m), bad), b = good_map(m);
            size_t tn = square(&a) + (size_t)dt, rn = (size_t)(m + dr), in = n + (size_t)dn,
                   on = n + (size_t)dout;
            int16_t l[257] = {0};
            uint8_t x[257] = {0};
            if (entry) {
                l[at] = l[n - 1] = INT16_MIN;
                x[at] = (uint8_t)random_between(2, 255), x[n - 1] = 255;
                if (dn < 0 && at == n - 1) at--;
                l[at] = INT16_MIN, x[at] = 2;
            }
            uint32_t e = expected(code, dt || dr || dn, dout, bad, entry);
            both_armed();
            answer p =
                reorder(M, a.table, tn, a.row, rn, l, in, (int16_t *)(void *)contents(&first), on);
            answer q = reorder_word(M, a.table, tn, a.row, rn, x, in, contents(&second), on);
            if (e) {
                refused(p, e, e == 4 ? at : 0);
                refused(q, e, e == 4 ? at : 0);
            } else {
                done(p);
                done(q);
            }
            /* for maps that are handed back the lengths of table and row are off */
            size_t ton = square(&a) + (size_t)dn, ron = (size_t)(m + dout);
            e = expected(code, dt || dr, dn || dout, bad, 0);
            both_armed();
            p = undo_map(M, a.table, tn, a.row, rn, contents(&first), ton, contents(&second), ron);
            if (e)
                refused(p, e, 0);
            else
                done(p);
            both_armed();
            p = product_map(M, &a, tn, rn, &b, square(&b), (size_t)m, contents(&first), ton,
                            contents(&second), ron);
            if (e)
                refused(p, e, 0);
            else
                done(p);
            both_armed();
            p = product_map(M, &b, square(&b), (size_t)m, &a, tn, rn, contents(&first), ton,
                            contents(&second), ron);
            if (e)
                refused(p, e, 0);
            else
                done(p);
        }
    end();
}

int main(void) {
    all_of_the_smallest();
    all_of_three();
    for (int m = 0; m <= 8; m++) random_maps(m);
    one_then_another();
    both_searches();
    faults();
    return finish();
}
