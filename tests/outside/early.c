/* The early answer against the rules: the quick reading's word tried by the sum of C-14, with the
 * largest size as M; where that fails, the walk by its text. All codes, allowances from none to
 * all, readings clean and noisy, at the bound itself and with no size at all; refusals with several
 * faults. */
#include "call.h"
#include "check.h"
#include "reference.h"

static guarded gb, gw;

/* whether the sum along the word is below M times the distance, and not with M = 0 */
static int surely_right(int r, int m, const int16_t *l, const uint8_t *x) {
    long most = 0, sum = 0;
    for (int j = 0; j < 1 << m; j++) {
        long size = l[j] < 0 ? -(long)l[j] : l[j];
        if (size > most) most = size;
    }
    for (int j = 0; j < 1 << m; j++) sum += x[j] ? most + l[j] : most - l[j];
    return most > 0 && sum < most << (m - r);
}

static unsigned long at_once, searched, out_of_visits, tied;

/* one call beside the rules; the walk by its text is not run further than `limit` */
static void against_rules(int r, int m, uint32_t allowed, const int16_t *l,
                          unsigned long long limit) {
    static ref_walk_t w;
    size_t n = (size_t)1 << m, k = (size_t)ref_k(r, m);
    uint8_t bits[256], word[256];
    ref_quick(r, m, l, bits, word);
    int sure = surely_right(r, m, l, word);
    if (!sure && allowed > limit) return;
    arm(&gb);
    arm(&gw);
    answer a =
        early_within((uint32_t)r, (uint32_t)m, allowed, l, n, contents(&gb), k, contents(&gw), n);
    CHECK(a.gap == 0 && a.place == 0, "gap %u, place %u", a.gap, a.place);
    if (!sure) {
        ref_walk(&w, r, m, l, allowed);
        if (w.out) {
            out_of_visits++;
            CHECK(a.refusal == 6 && a.visits == allowed && a.penalty == 0, "refusal %u, visits %u",
                  a.refusal, a.visits);
            CHECK(untouched(&gb) && untouched(&gw), "a refusal wrote");
            return;
        }
        if (w.best_penalty == w.second_penalty) {
            tied++;
            CHECK(a.refusal == 7 && a.visits == w.visits && a.penalty == w.best_penalty,
                  "refusal %u, visits %u", a.refusal, a.visits);
            CHECK(untouched(&gb) && untouched(&gw), "a refusal wrote");
            return;
        }
        searched++;
        ref_word(m, w.best, word);
        ref_pick(r, m, w.best, bits);
    } else {
        at_once++;
    }
    CHECK(a.refusal == 0 && a.visits == 0 && a.penalty == ref_penalty((int)n, l, word),
          "refusal %u, visits %u, penalty %u", a.refusal, a.visits, a.penalty);
    CHECK(memcmp(contents(&gb), bits, k) == 0 && memcmp(contents(&gw), word, n) == 0,
          "another word");
    CHECK(only_first(&gb, k) && only_first(&gw, n), "wrote outside");
}

/* what it answers is the best word, and the only one with its penalty */
static void against_brute_force(int r, int m, const int16_t *l) {
    size_t n = (size_t)1 << m, k = (size_t)ref_k(r, m);
    ref_best_t b = ref_best(r, m, l);
    answer a = early_within((uint32_t)r, (uint32_t)m, UINT32_MAX, l, n, contents(&gb), k,
                            contents(&gw), n);
    CHECK(a.refusal == (b.least == b.next ? 7u : 0u) && a.penalty == b.least,
          "refusal %u, penalty %u of %lld", a.refusal, a.penalty, b.least);
    if (a.refusal == 0)
        CHECK(memcmp(contents(&gb), b.bits, k) == 0 && memcmp(contents(&gw), b.word, n) == 0,
              "another word");
}

/* a word's signs: of one size with some bits wrong; with noise, clipped at the word's size; with
 * noise, not clipped; small; all rims; zeros */
static void make_readings(int r, int m, int kind, int16_t *l) {
    int n = 1 << m, size = random_between(1, random_below(2) ? 300 : LARGEST / 3 * 2);
    uint8_t x[256];
    random_word(r, m, x);
    int wrong = random_below((1 << (m - r)) / 2 + 2);
    for (int j = 0; j < n; j++) {
        int sign = x[j] ? -1 : 1, noisy = size + random_between(-size, size / 2);
        switch (kind) {
        case 0: l[j] = (int16_t)(j < wrong ? -sign : sign); break;
        case 1: l[j] = (int16_t)(sign * (noisy > size ? size : noisy)); break;
        case 2: l[j] = (int16_t)(sign * noisy); break;
        case 3: l[j] = (int16_t)random_between(-2, 2); break;
        case 4: l[j] = (int16_t)(sign * (random_below(8) ? LARGEST : -LARGEST)); break;
        default: l[j] = 0; break;
        }
    }
}
#define KINDS 6

static void all_codes(void) {
    int16_t l[256];
    for (int m = 0; m <= 8; m++)
        for (int r = 0; r <= m; r++) {
            begin("RM(%d,%d), the early answer", r, m);
            for (int t = 0; t < (m <= 5 ? 120 : 18); t++) {
                make_readings(r, m, t % KINDS, l);
                against_rules(r, m, 0, l, 3000);
                against_rules(r, m, (uint32_t)random_below(m <= 5 ? 400 : 900), l, 3000);
                against_rules(r, m, m <= 5 ? 3000 : 900, l, 3000);
                against_rules(r, m, UINT32_MAX, l, 3000);
                if (ref_k(r, m) <= 8) against_brute_force(r, m, l);
            }
            end();
        }
    begin("both ways, both refusals");
    CHECK(at_once > 500 && searched > 500 && out_of_visits > 500 && tied > 50,
          "%lu at once, %lu searched, %lu out of visits, %lu tied", at_once, searched,
          out_of_visits, tied);
    end();
}

/* RM(1,2), readings -1 1 1 1: the sum of 0000 is the bound itself, so the search is asked, and
 * finds a tie */
static void at_the_bound(void) {
    static const int16_t bound[4] = {-1, 1, 1, 1}, below[4] = {-1, 2, 2, 2}, none[4] = {0, 0, 0, 0};
    begin("the bound itself, just below it, and no size at all");
    arm(&gb);
    arm(&gw);
    answer a = early_within(1, 2, 0, bound, 4, contents(&gb), 3, contents(&gw), 4);
    CHECK(a.refusal == 6 && a.visits == 0 && untouched(&gb) && untouched(&gw), "refusal %u",
          a.refusal);
    a = early(1, 2, bound, 4, contents(&gb), 3, contents(&gw), 4);
    CHECK(a.refusal == 7 && a.penalty == 1 && a.visits == 9 && untouched(&gb) && untouched(&gw),
          "refusal %u", a.refusal);
    a = early_within(1, 2, 6, none, 4, contents(&gb), 3, contents(&gw), 4);
    CHECK(a.refusal == 6 && a.visits == 6 && a.penalty == 0 && untouched(&gb) && untouched(&gw),
          "refusal %u", a.refusal);
    a = early_within(1, 2, 7, none, 4, contents(&gb), 3, contents(&gw), 4);
    CHECK(a.refusal == 7 && a.visits == 7 && a.penalty == 0 && untouched(&gb) && untouched(&gw),
          "refusal %u", a.refusal);
    a = early_within(1, 2, 0, below, 4, contents(&gb), 3, contents(&gw), 4);
    CHECK(a.refusal == 0 && a.penalty == 1 && a.gap == 0 && a.visits == 0, "refusal %u, penalty %u",
          a.refusal, a.penalty);
    end();
}

/* the short call: where the test fails, the default allowance and no other */
static void short_call(void) {
    int16_t l[256];
    answer a = {0, 0, 0, 0, 0};
    begin("the short call's allowance");
    for (int t = 0; t < 20 && a.refusal != 6; t++) {
        for (int j = 0; j < 256; j++) l[j] = random_below(2) ? 1 : -1;
        a = early(3, 8, l, 256, contents(&gb), 93, contents(&gw), 256);
    }
    CHECK(a.refusal == 6 && a.visits == CINORBIS_DEFAULT_ALLOWANCE, "refusal %u, visits %u",
          a.refusal, a.visits);
    end();
}

static void refused(answer a, uint32_t number, uint32_t place) {
    CHECK(a.refusal == number && a.place == place && a.penalty == 0 && a.gap == 0 && a.visits == 0,
          "%u at %u, not %u at %u", a.refusal, a.place, number, place);
    CHECK(untouched(&gb) && untouched(&gw), "wrote");
}

static void faults(void) {
    static const int off[] = {0, -1, 1, 3};
    begin("every mixture of faults, in the order of the table");
    for (int m = 0; m <= 4; m++)
        for (int r = 0; r <= m; r++)
            for (int mixture = 1; mixture < 2 * 4 * 4 * 4 * 2; mixture++) {
                int code = mixture & 1, entry = mixture >> 7, in = off[mixture >> 1 & 3],
                    ob = off[mixture >> 3 & 3], ow = off[mixture >> 5 & 3];
                int n = 1 << m, k = ref_k(r, m), at = random_below(n);
                int16_t l[32];
                for (int j = 0; j < 32; j++) l[j] = random_reading();
                if (entry) l[at] = l[31] = INT16_MIN;
                uint32_t expected = code ? 1 : in ? 2 : ob || ow ? 3 : entry ? 4 : 0;
                if (expected == 0) continue;
                uint32_t R = code ? (uint32_t)m + 1 + (uint32_t)random_below(9) : (uint32_t)r,
                         place = expected == 4 ? (uint32_t)at : 0;
                arm(&gb);
                arm(&gw);
                refused(early_within(R, (uint32_t)m, UINT32_MAX, l, (size_t)(n + in), contents(&gb),
                                     (size_t)(k + ob), contents(&gw), (size_t)(n + ow)),
                        expected, place);
                refused(early(R, (uint32_t)m, l, (size_t)(n + in), contents(&gb), (size_t)(k + ob),
                              contents(&gw), (size_t)(n + ow)),
                        expected, place);
            }
    refused(early(0, 9, (int16_t[1]){0}, 1, contents(&gb), 1, contents(&gw), 1), 1, 0);
    end();
}

int main(void) {
    all_codes();
    at_the_bound();
    short_call();
    faults();
    return finish();
}
