/* The library against brute force over all words (codes with k <= 12) and against the walk by its
 * text (all codes), on random readings with zeros, ties and rims among them; demand 3 on the
 * library itself; encode and inverse; small cases exhaustively. */
#include "call.h"
#include "check.h"
#include "reference.h"

typedef struct {
    answer a;
    uint8_t bits[256], word[256];
} answered;

/* the search, with guards around both outputs and its buffers compared when it refuses */
static answered run(int r, int m, uint32_t allowed, const int16_t *l) {
    static guarded gb, gw;
    answered s;
    size_t n = (size_t)1 << m, k = (size_t)ref_k(r, m);
    arm(&gb);
    arm(&gw);
    s.a =
        search_within((uint32_t)r, (uint32_t)m, allowed, l, n, contents(&gb), k, contents(&gw), n);
    if (s.a.refusal)
        CHECK(untouched(&gb) && untouched(&gw), "a refusal %u wrote", s.a.refusal);
    else
        CHECK(only_first(&gb, k) && only_first(&gw, n), "wrote outside");
    memcpy(s.bits, contents(&gb), k);
    memcpy(s.word, contents(&gw), n);
    return s;
}

/* readings of several kinds: full range, small, with zeros, near a word with noise, only rims, all
 * equal */
static void make_readings(int r, int m, int kind, int16_t *l) {
    int n = 1 << m;
    uint8_t x[256];
    random_word(r, m, x);
    for (int j = 0; j < n; j++) {
        switch (kind) {
        case 0: l[j] = random_reading(); break;
        case 1: l[j] = (int16_t)random_between(-2, 2); break;
        case 2: l[j] = (int16_t)(random_below(3) ? 0 : random_between(-3, 3)); break;
        case 3: l[j] = (int16_t)((x[j] ? -60 : 60) + random_between(-75, 75)); break;
        case 4: l[j] = random_below(2) ? LARGEST : -LARGEST; break;
        default: l[j] = (int16_t)((x[j] ? -1 : 1) * (random_below(12) ? 1 : -1)); break;
        }
    }
}
#define KINDS 6

static void against_brute_force(int r, int m, const int16_t *l) {
    int n = 1 << m, k = ref_k(r, m);
    ref_best_t b = ref_best(r, m, l);
    answered s = run(r, m, UINT32_MAX, l);
    if (b.least == b.next) {
        CHECK(s.a.refusal == 7 && s.a.penalty == b.least && s.a.gap == 0,
              "refusal %u, penalty %u of %lld", s.a.refusal, s.a.penalty, b.least);
        return;
    }
    CHECK(s.a.refusal == 0 && s.a.penalty == b.least && s.a.gap == b.next - b.least,
          "refusal %u, penalty %u of %lld, gap %u of %lld", s.a.refusal, s.a.penalty, b.least,
          s.a.gap, b.next - b.least);
    CHECK(memcmp(s.bits, b.bits, (size_t)k) == 0 && memcmp(s.word, b.word, (size_t)n) == 0,
          "another word");
}

/* visits, allowance exact and one less; the word that the walk by the text holds */
static void against_walk(int r, int m, const int16_t *l, unsigned long long limit) {
    static ref_walk_t w;
    int n = 1 << m;
    ref_walk(&w, r, m, l, limit);
    if (w.out) {
        answered s = run(r, m, (uint32_t)limit, l);
        CHECK(s.a.refusal == 6 && s.a.visits == limit && s.a.penalty == 0 && s.a.gap == 0,
              "refusal %u", s.a.refusal);
        return;
    }
    answered s = run(r, m, (uint32_t)w.visits, l), t = run(r, m, (uint32_t)w.visits - 1, l);
    CHECK(t.a.refusal == 6 && t.a.visits == w.visits - 1, "one less: refusal %u", t.a.refusal);
    if (w.best_penalty == w.second_penalty) {
        CHECK(s.a.refusal == 7 && s.a.penalty == w.best_penalty && s.a.visits == w.visits,
              "refusal %u", s.a.refusal);
        return;
    }
    uint8_t x[256], bits[256];
    ref_word(m, w.best, x);
    ref_pick(r, m, w.best, bits);
    CHECK(s.a.refusal == 0 && s.a.visits == w.visits && s.a.penalty == w.best_penalty &&
              s.a.gap == w.second_penalty - w.best_penalty,
          "refusal %u, visits %u of %llu", s.a.refusal, s.a.visits, w.visits);
    CHECK(memcmp(s.word, x, (size_t)n) == 0 && memcmp(s.bits, bits, (size_t)ref_k(r, m)) == 0,
          "another word");
}

static void quick_and_encode(int r, int m, const int16_t *l) {
    static guarded gb, gw, back;
    size_t n = (size_t)1 << m, k = (size_t)ref_k(r, m);
    uint8_t bits[256], word[256];
    arm(&gb);
    arm(&gw);
    arm(&back);
    answer a = quick((uint32_t)r, (uint32_t)m, l, n, contents(&gb), k, contents(&gw), n);
    ref_quick(r, m, l, bits, word);
    CHECK(a.refusal == 0 && a.penalty == ref_penalty((int)n, l, word) && a.gap == 0 &&
              a.visits == 0,
          "refusal %u", a.refusal);
    CHECK(memcmp(contents(&gb), bits, k) == 0 && memcmp(contents(&gw), word, n) == 0,
          "another word");
    CHECK(only_first(&gb, k) && only_first(&gw, n), "wrote outside");
    arm(&gw);
    a = encode((uint32_t)r, (uint32_t)m, bits, k, contents(&gw), n);
    CHECK(a.refusal == 0 && memcmp(contents(&gw), word, n) == 0 && only_first(&gw, n), "encode");
    a = inverse((uint32_t)r, (uint32_t)m, word, n, contents(&back), k);
    CHECK(a.refusal == 0 && memcmp(contents(&back), bits, k) == 0 && only_first(&back, k),
          "inverse");
    /* any row of bits: refused as 5 at the lowest frozen index that is 1 */
    uint8_t u[256], x[256];
    for (size_t i = 0; i < n; i++) u[i] = (uint8_t)(random_below(8) == 0);
    ref_word(m, u, x);
    size_t frozen = n;
    for (size_t i = n; i-- > 0;)
        if (u[i] && !ref_is_information(r, m, (int)i)) frozen = i;
    arm(&back);
    a = inverse((uint32_t)r, (uint32_t)m, x, n, contents(&back), k);
    if (frozen < n)
        CHECK(a.refusal == 5 && a.place == frozen && untouched(&back), "refusal %u at %u",
              a.refusal, a.place);
    else
        CHECK(a.refusal == 0, "refusal %u", a.refusal);
}

/* demand 3: negate the readings where a random word has 1 */
static void negated(int r, int m, const int16_t *l) {
    static ref_walk_t w;
    int n = 1 << m, k = ref_k(r, m);
    uint8_t bits[256], c[256];
    int16_t turned[256];
    int all_ones = random_below(4) == 0;
    for (int i = 0; i < k; i++) bits[i] = (uint8_t)(all_ones ? i == k - 1 : random_below(2));
    ref_encode(r, m, bits, c);
    for (int j = 0; j < n; j++) turned[j] = (int16_t)(c[j] ? -l[j] : l[j]);
    answered s = run(r, m, 200000, l), t = run(r, m, 200000, turned);
    if (s.a.refusal != 6 && t.a.refusal != 6) {
        CHECK(s.a.refusal == t.a.refusal && s.a.penalty == t.a.penalty && s.a.gap == t.a.gap,
              "%u, %u", s.a.refusal, t.a.refusal);
        if (s.a.refusal == 0) {
            for (int j = 0; j < n; j++) CHECK(t.word[j] == (s.word[j] ^ c[j]), "word");
            for (int i = 0; i < k; i++) CHECK(t.bits[i] == (s.bits[i] ^ bits[i]), "bits");
        }
    }
    if (all_ones)
        CHECK(s.a.visits == t.a.visits && s.a.refusal == t.a.refusal, "all ones: %u visits, %u",
              s.a.visits, t.a.visits);
    if (n <= 32) {
        ref_walk(&w, r, m, l, 200000);
        if (!w.out && !w.met_zero)
            CHECK(s.a.visits == t.a.visits, "%u visits, %u", s.a.visits, t.a.visits);
    }
}

/* all readings from -size to size */
static void exhaustive(int r, int m, int size) {
    int n = 1 << m;
    int16_t l[256];
    begin("RM(%d,%d), all readings from %d to %d", r, m, -size, size);
    for (int j = 0; j < n; j++) l[j] = (int16_t)-size;
    for (;;) {
        against_brute_force(r, m, l);
        against_walk(r, m, l, 1u << 30);
        quick_and_encode(r, m, l);
        int j = 0;
        while (j < n && l[j] == size) l[j++] = (int16_t)-size;
        if (j == n) break;
        l[j]++;
    }
    end();
}

/* 256 readings of the largest size: the sums reach 256 * 32,767 = 8,388,352, and a sum or a size of
 * fewer bits would show */
static void largest_sums(void) {
    int16_t l[256];
    answered s;
    begin("RM(8,8), 256 readings of the largest size, any signs");
    for (int t = 0; t < 40; t++) {
        for (int j = 0; j < 256; j++)
            l[j] = t == 0 ? LARGEST : t == 1 ? -LARGEST : random_below(2) ? LARGEST : -LARGEST;
        s = run(8, 8, UINT32_MAX, l);
        CHECK(s.a.refusal == 0 && s.a.penalty == 0 && s.a.gap == LARGEST, "%u, penalty %u, gap %u",
              s.a.refusal, s.a.penalty, s.a.gap);
        for (int j = 0; j < 256; j++) CHECK(s.word[j] == (l[j] < 0), "bit %d", j);
        if (t < 4) against_walk(8, 8, l, 5000);
        quick_and_encode(8, 8, l);
    }
    end();
    begin("RM(0,8), 256 readings of the largest size: every number of plus signs");
    for (int plus = 0; plus <= 256; plus++) {
        int less = plus < 128 ? plus : 256 - plus;
        for (int j = 0; j < 256; j++) l[j] = j < plus ? LARGEST : -LARGEST;
        s = run(0, 8, UINT32_MAX, l);
        CHECK(s.a.refusal == (plus == 128 ? 7u : 0u) && s.a.penalty == (uint32_t)less * LARGEST &&
                  s.a.gap == (uint32_t)(256 - 2 * less) * LARGEST,
              "%d: %u, penalty %u, gap %u", plus, s.a.refusal, s.a.penalty, s.a.gap);
        quick_and_encode(0, 8, l);
    }
    end();
}

/* an allowance as large as the whole tree is never too small */
static void whole_tree(int r, int m, const int16_t *l) {
    if (ref_tree(r, m) <= UINT32_MAX && ref_k(r, m) <= 16)
        CHECK(run(r, m, (uint32_t)ref_tree(r, m), l).a.refusal != 6, "whole tree of %llu",
              ref_tree(r, m));
}

int main(void) {
    int16_t l[256];
    for (int m = 0; m <= 2; m++)
        for (int r = 0; r <= m; r++) exhaustive(r, m, 3);
    for (int r = 0; r <= 3; r++) exhaustive(r, 3, 1);
    largest_sums();
    for (int m = 0; m <= 8; m++)
        for (int r = 0; r <= m; r++) {
            int k = ref_k(r, m);
            if (k <= 12) {
                begin("RM(%d,%d) against brute force", r, m);
                for (int t = 0; t < (k <= 8 ? 60 : 12); t++) {
                    make_readings(r, m, t % KINDS, l);
                    against_brute_force(r, m, l);
                }
                end();
            }
            begin("RM(%d,%d) against the walk", r, m);
            for (int t = 0; t < (m <= 5 ? 60 : 12); t++) {
                make_readings(r, m, t % KINDS, l);
                against_walk(r, m, l, m <= 5 ? 5000 : 900);
                quick_and_encode(r, m, l);
                whole_tree(r, m, l);
            }
            end();
            begin("RM(%d,%d), readings negated by words", r, m);
            for (int t = 0; t < (m <= 5 ? 60 : 12); t++) {
                make_readings(r, m, t % KINDS, l);
                negated(r, m, l);
            }
            end();
        }
    return finish();
}
