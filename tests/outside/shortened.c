/* Calls on a shortened set against the rules, §15: all rows of RM(1,3) and RM(2,3), random rows of
 * all codes, brute force for k up to 12, the walk by its text with its runner-up, an empty choice
 * against the plain calls, and refusals with several faults at once. */
#include "call.h"
#include "check.h"
#include "reference.h"

static guarded gb, gw, gs;

static inline answer encode_shortened(uint32_t r, uint32_t m, const uint8_t *named, size_t n_,
                                      const uint8_t *bits, size_t k, uint8_t *word, size_t w) {
    CALL(cinorbis_encode_shortened, r, m, named, n_, bits, k, word, w);
}

static inline answer inverse_shortened(uint32_t r, uint32_t m, const uint8_t *named, size_t n_,
                                       const uint8_t *word, size_t w, uint8_t *bits, size_t k) {
    CALL(cinorbis_inverse_shortened, r, m, named, n_, word, w, bits, k);
}

static inline answer quick_shortened(uint32_t r, uint32_t m, const uint8_t *named, size_t n_,
                                     const int16_t *l, size_t l_, uint8_t *bits, size_t k,
                                     uint8_t *word, size_t w) {
    CALL(cinorbis_quick_shortened, r, m, named, n_, l, l_, bits, k, word, w);
}

static inline answer search_shortened(uint32_t r, uint32_t m, const uint8_t *named, size_t n_,
                                      const int16_t *l, size_t l_, uint8_t *bits, size_t k,
                                      uint8_t *word, size_t w, uint8_t *second) {
    CALL(cinorbis_search_shortened, r, m, named, n_, l, l_, bits, k, word, w, second);
}

static inline answer search_within_shortened(uint32_t r, uint32_t m, uint32_t allowed,
                                             const uint8_t *named, size_t n_, const int16_t *l,
                                             size_t l_, uint8_t *bits, size_t k, uint8_t *word,
                                             size_t w, uint8_t *second) {
    CALL(cinorbis_search_within_shortened, r, m, allowed, named, n_, l, l_, bits, k, word, w,
         second);
}

/* bytes 0 or 1, information indices only, and one is left */
static int good_row(int r, int m, const uint8_t *named) {
    int left = 0;
    ref_named = NULL;
    for (int i = 0; i < 1 << m; i++) {
        int information = ref_is_information(r, m, i);
        if (named[i] > 1 || (named[i] && !information)) return 0;
        left += information && !named[i];
    }
    return left > 0;
}

static void some_readings(int m, int noise, int16_t *l) {
    for (int j = 0; j < 1 << m; j++) l[j] = (int16_t)random_between(-noise, noise);
}

/* readings of a word of the set with noise */
static void near_word(int r, int m, int16_t *l) {
    uint8_t word[256];
    random_word(r, m, word);
    for (int j = 0; j < 1 << m; j++)
        l[j] = (int16_t)((word[j] ? -100 : 100) + random_between(-90, 90));
}

static void all_arm(void) {
    arm(&gb);
    arm(&gw);
    arm(&gs);
}

/* under every refusal the buffers stay and the runner-up is zeros */
static int kept(int with_second) {
    static const uint8_t zeros[256];
    return untouched(&gb) && untouched(&gw) &&
           (!with_second || (memcmp(contents(&gs), zeros, 256) == 0 && only_first(&gs, 256)));
}

/* encoder and inverse on some bits and some words, with a good row */
static void coded(int r, int m, const uint8_t *named, const uint8_t *bits, const uint8_t *word) {
    size_t n = (size_t)1 << m, k = (size_t)ref_k(r, m);
    uint8_t x[256], u[256], b[256];
    ref_encode(r, m, bits, x);
    all_arm();
    answer a = encode_shortened((uint32_t)r, (uint32_t)m, named, n, bits, k, contents(&gw), n);
    CHECK(a.refusal == 0 && a.place == 0 && a.penalty == 0 && a.gap == 0 && a.visits == 0,
          "refusal %u", a.refusal);
    CHECK(memcmp(contents(&gw), x, n) == 0 && only_first(&gw, n), "another word");
    a = inverse_shortened((uint32_t)r, (uint32_t)m, named, n, x, n, contents(&gb), k);
    CHECK(a.refusal == 0 && memcmp(contents(&gb), bits, k) == 0 && only_first(&gb, k), "refusal %u",
          a.refusal);
    /* any n bits: taken back, or refused at the lowest index that is frozen or named */
    ref_word(m, word, u);
    int lowest = -1;
    for (int i = 0; i < (int)n && lowest < 0; i++)
        if (u[i] && !ref_is_information(r, m, i)) lowest = i;
    ref_pick(r, m, u, b);
    all_arm();
    a = inverse_shortened((uint32_t)r, (uint32_t)m, named, n, word, n, contents(&gb), k);
    if (lowest < 0) {
        CHECK(a.refusal == 0 && memcmp(contents(&gb), b, k) == 0 && only_first(&gb, k),
              "refusal %u", a.refusal);
    } else {
        CHECK(a.refusal == 5 && a.place == (uint32_t)lowest && kept(0), "refusal %u at %u",
              a.refusal, a.place);
    }
}

static void read_quickly(int r, int m, const uint8_t *named, const int16_t *l) {
    size_t n = (size_t)1 << m, k = (size_t)ref_k(r, m);
    uint8_t bits[256], word[256];
    ref_quick(r, m, l, bits, word);
    all_arm();
    answer a = quick_shortened((uint32_t)r, (uint32_t)m, named, n, l, n, contents(&gb), k,
                               contents(&gw), n);
    CHECK(a.refusal == 0 && a.penalty == ref_penalty((int)n, l, word) && a.gap == 0 &&
              a.visits == 0 && a.place == 0,
          "refusal %u", a.refusal);
    CHECK(memcmp(contents(&gb), bits, k) == 0 && memcmp(contents(&gw), word, n) == 0,
          "another word");
    CHECK(only_first(&gb, k) && only_first(&gw, n), "wrote outside");
}

static void searched(int r, int m, uint32_t allowed, const uint8_t *named, const int16_t *l,
                     int brute) {
    static ref_walk_t w;
    size_t n = (size_t)1 << m, k = (size_t)ref_k(r, m);
    uint8_t bits[256], word[256], second[256] = {0};
    ref_walk(&w, r, m, l, allowed);
    all_arm();
    answer a = search_within_shortened((uint32_t)r, (uint32_t)m, allowed, named, n, l, n,
                                       contents(&gb), k, contents(&gw), n, contents(&gs));
    CHECK(a.place == 0, "place %u", a.place);
    if (w.out) {
        CHECK(a.refusal == 6 && a.visits == allowed && a.penalty == 0 && a.gap == 0 && kept(1),
              "refusal %u, visits %u", a.refusal, a.visits);
        return;
    }
    CHECK(a.penalty == w.best_penalty && a.visits == w.visits,
          "penalty %u of %lld, visits %u of %llu", a.penalty, w.best_penalty, a.visits, w.visits);
    if (w.best_penalty == w.second_penalty) {
        CHECK(a.refusal == 7 && a.gap == 0 && kept(1), "refusal %u", a.refusal);
    } else {
        ref_word(m, w.best, word);
        ref_pick(r, m, w.best, bits);
        ref_pick(r, m, w.second, second);
        CHECK(a.refusal == 0 && a.gap == (uint32_t)(w.second_penalty - w.best_penalty),
              "refusal %u, gap %u", a.refusal, a.gap);
        CHECK(memcmp(contents(&gb), bits, k) == 0 && memcmp(contents(&gw), word, n) == 0 &&
                  memcmp(contents(&gs), second, 256) == 0,
              "another word");
        CHECK(only_first(&gb, k) && only_first(&gw, n) && only_first(&gs, 256), "wrote outside");
    }
    if (!brute) return;
    ref_best_t b = ref_best(r, m, l);
    CHECK(a.penalty == b.least && a.refusal == (b.least == b.next ? 7u : 0u), "penalty %u of %lld",
          a.penalty, b.least);
    if (a.refusal == 0)
        CHECK(a.gap == (uint32_t)(b.next - b.least) && memcmp(contents(&gw), b.word, n) == 0,
              "not the best");
}

/* all four calls with a row that is no good one, whatever else is wrong: 12 */
static void refused_row(int r, int m, const uint8_t *named, size_t length) {
    size_t n = (size_t)1 << m;
    uint8_t bits[256] = {0};
    int16_t l[256] = {0};
    for (int fault = 0; fault < 4; fault++) {
        size_t in = fault == 1 ? n + 1 : n, out = fault == 2 ? 0 : n;
        bits[0] = fault == 3 ? 2 : 0;
        l[0] = (int16_t)(fault == 3 ? -32768 : 1);
        all_arm();
        answer a =
            encode_shortened((uint32_t)r, (uint32_t)m, named, length, bits, in, contents(&gw), out);
        CHECK(a.refusal == CINORBIS_NAMED && a.place == 0 && a.visits == 0 && a.penalty == 0 &&
                  kept(0),
              "refusal %u", a.refusal);
        a = inverse_shortened((uint32_t)r, (uint32_t)m, named, length, bits, in, contents(&gb),
                              out);
        CHECK(a.refusal == CINORBIS_NAMED && a.place == 0 && kept(0), "refusal %u", a.refusal);
        a = quick_shortened((uint32_t)r, (uint32_t)m, named, length, l, in, contents(&gb), out,
                            contents(&gw), out);
        CHECK(a.refusal == CINORBIS_NAMED && a.place == 0 && kept(0), "refusal %u", a.refusal);
        a = search_shortened((uint32_t)r, (uint32_t)m, named, length, l, in, contents(&gb), out,
                             contents(&gw), out, contents(&gs));
        CHECK(a.refusal == CINORBIS_NAMED && a.place == 0 && a.visits == 0 && a.gap == 0 && kept(1),
              "refusal %u", a.refusal);
        all_arm();
        a = search_within_shortened((uint32_t)r, (uint32_t)m, 0, named, length, l, in,
                                    contents(&gb), out, contents(&gw), out, contents(&gs));
        CHECK(a.refusal == CINORBIS_NAMED && a.visits == 0 && kept(1), "refusal %u", a.refusal);
    }
}

/* every row of bytes 0 and 1 of a code of length 8, and every word of eight bits */
static void all_rows(int r) {
    for (unsigned row = 0; row < 256; row++) {
        uint8_t named[8];
        for (int i = 0; i < 8; i++) named[i] = (uint8_t)((row >> i) & 1);
        begin("RM(%d,3), row %02x", r, row);
        if (!good_row(r, 3, named)) {
            refused_row(r, 3, named, 8);
            end();
            continue;
        }
        ref_named = named;
        for (unsigned x = 0; x < 256; x++) {
            uint8_t bits[8], word[8];
            for (int i = 0; i < 8; i++) {
                bits[i] = (uint8_t)((x >> i) & 1);
                word[i] = bits[i];
            }
            coded(r, 3, named, bits, word);
        }
        for (int t = 0; t < 40; t++) {
            int16_t l[8];
            some_readings(3, t < 20 ? 3 : 2000, l);
            if (t % 5 == 4) near_word(r, 3, l);
            read_quickly(r, 3, named, l);
            searched(r, 3, t % 4 == 3 ? (uint32_t)random_below(40) : UINT32_MAX, named, l, 1);
        }
        ref_named = NULL;
        end();
    }
}

/* random rows of every code: few names, many, and all but a few indices named */
static void random_rows(int r, int m) {
    uint8_t named[256], bits[256], word[256];
    int16_t l[256];
    begin("RM(%d,%d), random rows", r, m);
    for (int t = 0; t < (m > 5 ? 6 : 12); t++) {
        int share = t % 3 == 0 ? 10 : t % 3 == 1 ? 50 : 95;
        do {
            ref_named = NULL;
            for (int i = 0; i < 1 << m; i++)
                named[i] = (uint8_t)(ref_is_information(r, m, i) && random_below(100) < share);
        } while (!good_row(r, m, named));
        ref_named = named;
        int k = ref_k(r, m);
        for (int j = 0; j < 256; j++) {
            bits[j] = (uint8_t)random_below(2);
            word[j] = (uint8_t)random_below(2);
        }
        coded(r, m, named, bits, word);
        /* the walk by its text is slow for long words */
        uint32_t allowed = k <= 12 ? UINT32_MAX : m > 6 ? 200 : 1000;
        near_word(r, m, l);
        read_quickly(r, m, named, l);
        searched(r, m, allowed, named, l, k <= 12);
        some_readings(m, 100, l);
        read_quickly(r, m, named, l);
        searched(r, m, m > 6 ? 200 : allowed, named, l, k <= 12 && m <= 6);
    }
    ref_named = NULL;
    end();
}

/* n zero bytes: what the plain calls give, every number and byte */
static void empty_choice(int r, int m) {
    static const uint8_t none[256];
    size_t n = (size_t)1 << m, k = (size_t)ref_k(r, m);
    uint8_t bits[256], x[256], y[256], b[256], c[256], s[256], t[256];
    int16_t l[256];
    begin("RM(%d,%d), empty choice", r, m);
    for (int turn = 0; turn < 8; turn++) {
        for (int j = 0; j < 256; j++) bits[j] = (uint8_t)random_below(turn == 7 ? 3 : 2);
        near_word(r, m, l);
        if (turn == 6) l[n - 1] = -32768;
        memset(x, 7, 256), memset(y, 7, 256), memset(b, 7, 256), memset(c, 7, 256),
            memset(s, 7, 256), memset(t, 7, 256);
        size_t in = turn == 5 ? n - 1 : n, out = turn == 4 ? n + 1 : n;
        answer a = encode((uint32_t)r, (uint32_t)m, bits, k, x, out),
               a2 = encode_shortened((uint32_t)r, (uint32_t)m, none, n, bits, k, y, out);
        CHECK(memcmp(&a, &a2, sizeof a) == 0 && memcmp(x, y, 256) == 0, "encoders differ");
        a = inverse((uint32_t)r, (uint32_t)m, turn < 3 ? x : bits, in, b, k);
        a2 = inverse_shortened((uint32_t)r, (uint32_t)m, none, n, turn < 3 ? x : bits, in, c, k);
        CHECK(memcmp(&a, &a2, sizeof a) == 0 && memcmp(b, c, 256) == 0, "inverses differ");
        a = quick((uint32_t)r, (uint32_t)m, l, in, b, k, x, out);
        a2 = quick_shortened((uint32_t)r, (uint32_t)m, none, n, l, in, c, k, y, out);
        CHECK(memcmp(&a, &a2, sizeof a) == 0 && memcmp(b, c, 256) == 0 && memcmp(x, y, 256) == 0,
              "quick readings differ");
        uint32_t allowed = turn % 2 ? 3000u : (uint32_t)random_below(200);
        a = search_within_second((uint32_t)r, (uint32_t)m, allowed, l, in, b, k, x, out, s);
        a2 = search_within_shortened((uint32_t)r, (uint32_t)m, allowed, none, n, l, in, c, k, y,
                                     out, t);
        CHECK(memcmp(&a, &a2, sizeof a) == 0 && memcmp(b, c, 256) == 0 && memcmp(x, y, 256) == 0 &&
                  memcmp(s, t, 256) == 0,
              "searches differ");
        if (m > 5) continue;
        a = search_second((uint32_t)r, (uint32_t)m, l, in, b, k, x, out, s);
        a2 = search_shortened((uint32_t)r, (uint32_t)m, none, n, l, in, c, k, y, out, t);
        CHECK(memcmp(&a, &a2, sizeof a) == 0 && memcmp(b, c, 256) == 0 && memcmp(x, y, 256) == 0 &&
                  memcmp(s, t, 256) == 0,
              "short searches differ");
    }
    end();
}

/* rows of a wrong length, with a byte above 1, that name a frozen index, or that leave nothing; and
 * the order 1, 12, 2, 3, 4 */
static void bad_rows(int r, int m) {
    uint8_t named[257] = {0};
    size_t n = (size_t)1 << m;
    begin("RM(%d,%d), bad rows", r, m);
    refused_row(r, m, named, 0);
    refused_row(r, m, named, n - 1);
    refused_row(r, m, named, n + 1);
    for (int t = 0; t < 4; t++) {
        memset(named, 0, sizeof named);
        named[random_below((int)n)] = (uint8_t)(t == 0 ? 2 : random_between(2, 255));
        refused_row(r, m, named, n);
    }
    ref_named = NULL;
    memset(named, 0, sizeof named);
    for (size_t i = 0; i < n; i++) named[i] = (uint8_t)ref_is_information(r, m, (int)i);
    refused_row(r, m, named, n);
    if (r < m) {
        memset(named, 0, sizeof named);
        named[0] = 1;
        refused_row(r, m, named, n);
    }
    end();
}

static void in_their_order(void) {
    static const uint8_t named[8] = {0, 0, 0, 1, 0, 0, 0, 0}, bad[8] = {1, 0, 0, 0, 0, 0, 0, 0};
    uint8_t in[8] = {0, 2, 0, 0, 0, 0, 0, 0};
    int16_t l[8] = {1, -32768, 1, 1, 1, 1, 1, 1};
    begin("several faults");
    all_arm();
    CHECK(encode_shortened(4, 3, bad, 7, in, 9, contents(&gw), 9).refusal == 1 && kept(0),
          "1 first");
    CHECK(search_shortened(1, 9, bad, 7, l, 9, contents(&gb), 9, contents(&gw), 9, contents(&gs))
                      .refusal == 1 &&
              kept(1),
          "1 first");
    CHECK(encode_shortened(1, 3, bad, 8, in, 9, contents(&gw), 9).refusal == 12 && kept(0),
          "12 before 2");
    CHECK(quick_shortened(1, 3, bad, 8, l, 9, contents(&gb), 9, contents(&gw), 9).refusal == 12 &&
              kept(0),
          "12 before 2");
    /* three bits are left, not four */
    CHECK(encode_shortened(1, 3, named, 8, in, 4, contents(&gw), 9).refusal == 2 && kept(0),
          "2 before 3");
    CHECK(encode_shortened(1, 3, named, 8, in, 3, contents(&gw), 9).refusal == 3 && kept(0),
          "3 before 4");
    answer a = encode_shortened(1, 3, named, 8, in, 3, contents(&gw), 8);
    CHECK(a.refusal == 4 && a.place == 1 && kept(0), "4 at %u", a.place);
    CHECK(inverse_shortened(1, 3, named, 8, in, 8, contents(&gb), 4).refusal == 3 && kept(0),
          "3 before 4");
    a = inverse_shortened(1, 3, named, 8, in, 8, contents(&gb), 3);
    CHECK(a.refusal == 4 && a.place == 1 && kept(0), "4 at %u", a.place);
    CHECK(quick_shortened(1, 3, named, 8, l, 8, contents(&gb), 4, contents(&gw), 8).refusal == 3 &&
              kept(0),
          "3 before 4");
    CHECK(quick_shortened(1, 3, named, 8, l, 7, contents(&gb), 4, contents(&gw), 8).refusal == 2 &&
              kept(0),
          "2 before 3");
    a = search_shortened(1, 3, named, 8, l, 8, contents(&gb), 3, contents(&gw), 8, contents(&gs));
    CHECK(a.refusal == 4 && a.place == 1 && kept(1), "4 at %u", a.place);
    all_arm();
    CHECK(search_within_shortened(1, 3, 0, named, 8, l, 8, contents(&gb), 4, contents(&gw), 8,
                                  contents(&gs))
                      .refusal == 3 &&
              kept(1),
          "3 before 4");
    l[1] = 1;
    a = search_within_shortened(1, 3, 0, named, 8, l, 8, contents(&gb), 3, contents(&gw), 8,
                                contents(&gs));
    CHECK(a.refusal == 6 && a.visits == 0 && kept(1), "6 then");
    end();
}

/* where the last index is named, the all-ones word is no word, and a turned-over link gives another
 * word or a tie */
static void turned_over(void) {
    static const uint8_t named[8] = {0, 0, 0, 0, 0, 0, 0, 1};
    uint8_t ones[8], bits[3] = {1, 0, 1}, word[8], b[3], x[8], s[256];
    int16_t l[8];
    begin("turned over");
    memset(ones, 1, 8);
    answer a = inverse_shortened(1, 3, named, 8, ones, 8, b, 3);
    CHECK(a.refusal == 5 && a.place == 7, "refusal %u at %u", a.refusal, a.place);
    encode_shortened(1, 3, named, 8, bits, 3, word, 8);
    for (int j = 0; j < 8; j++) l[j] = (int16_t)(word[j] ? -10 : 10);
    a = search_shortened(1, 3, named, 8, l, 8, b, 3, x, 8, s);
    CHECK(a.refusal == 0 && a.penalty == 0 && a.gap == 40 && memcmp(x, word, 8) == 0,
          "penalty %u, gap %u", a.penalty, a.gap);
    for (int j = 0; j < 8; j++) l[j] = (int16_t)-l[j];
    a = search_shortened(1, 3, named, 8, l, 8, b, 3, x, 8, s);
    CHECK(a.refusal == 7 && a.penalty == 40, "refusal %u, penalty %u", a.refusal, a.penalty);
    end();
}

int main(void) {
    all_rows(1);
    all_rows(2);
    for (int m = 0; m <= 8; m++)
        for (int r = 0; r <= m; r++) {
            random_rows(r, m);
            empty_choice(r, m);
            bad_rows(r, m);
        }
    in_their_order();
    turned_over();
    return finish();
}
