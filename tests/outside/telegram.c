/* Telegrams: all of them written, read, and read with every reading negated; with noise against the
 * walk by its text; what all 16 bits say; every refusal of the writer, the reader and the reader of
 * bits, several faults at once. The telegram's bits are put together here by shifts, and its word
 * by the reference. */
#include "call.h"
#include "check.h"
#include "reference.h"
#include <stdlib.h>

#define TELEGRAMS (8 * 2 * 1501 - 8)

typedef struct {
    answer a;
    cinorbis_telegram t;
} heard;

/* the struct holds arbitrary bytes before each call, so that a field that is not written shows */
#define HEAR(name, ...)                                                                            \
    heard h;                                                                                       \
    cinorbis_numbers n;                                                                            \
    memset(&h.t, 0x5A, sizeof h.t);                                                                \
    memset(&n, 0xA5, sizeof n);                                                                    \
    uint32_t refusal = name(__VA_ARGS__, &h.t, &n);                                                \
    h.a = joined(refusal, n);                                                                      \
    return h

static heard read_within(uint32_t allowed, const int16_t *l, size_t n_) {
    HEAR(cinorbis_telegram_read_within, allowed, l, n_);
}

static heard read_default(const int16_t *l, size_t n_) { HEAR(cinorbis_telegram_read, l, n_); }

static heard of_bits(const uint8_t *bits, size_t n_) { HEAR(cinorbis_telegram_of_bits, bits, n_); }

static answer write_telegram(uint32_t cylinder, uint32_t direction, uint32_t tilt, uint8_t *word,
                             size_t w) {
    CALL(cinorbis_telegram_write, cylinder, direction, tilt, word, w);
}

/* 16 bits, given as a number whose most significant bit comes first; and their word */
static void bits_of(unsigned number, uint8_t *bits) {
    for (int i = 0; i < 16; i++) bits[i] = (uint8_t)(number >> (15 - i) & 1);
}

static void word_of(unsigned number, uint8_t *x) {
    uint8_t bits[16];
    bits_of(number, bits);
    ref_encode(2, 5, bits, x);
}

static unsigned number_of(unsigned cylinder, unsigned direction, unsigned tilt, unsigned marker) {
    return cylinder << 13 | direction << 12 | tilt << 1 | marker;
}

static void send(const uint8_t *x, int size, int16_t *l) {
    for (int j = 0; j < 32; j++) l[j] = (int16_t)(x[j] ? -size : size);
}

static void negate(int16_t *l) {
    for (int j = 0; j < 32; j++) l[j] = (int16_t)-l[j];
}

/* a refusal shows no field, and carries just these numbers */
static void shows_nothing(heard h, uint32_t refusal, uint32_t penalty, uint32_t visits,
                          uint32_t place) {
    CHECK(h.a.refusal == refusal && h.a.penalty == penalty && h.a.gap == 0 &&
              h.a.visits == visits && h.a.place == place,
          "refused %u (penalty %u, gap %u, visits %u, place %u), not %u", h.a.refusal, h.a.penalty,
          h.a.gap, h.a.visits, h.a.place, refusal);
    CHECK(h.t.cylinder == 0 && h.t.direction == 0 && h.t.tilt == 0,
          "shows %" PRIu64 " %" PRIu64 " %" PRIu64, h.t.cylinder, h.t.direction, h.t.tilt);
}

static void shows(heard h, unsigned cylinder, unsigned direction, unsigned tilt) {
    CHECK(h.a.refusal == 0 && h.t.cylinder == cylinder && h.t.direction == direction &&
              h.t.tilt == tilt,
          "%u: %" PRIu64 " %" PRIu64 " %" PRIu64 ", not %u %u %u", h.a.refusal, h.t.cylinder,
          h.t.direction, h.t.tilt, cylinder, direction, tilt);
    CHECK(h.a.place == 0, "place %u", h.a.place);
}

static int by_value(const void *a, const void *b) {
    uint32_t x = *(const uint32_t *)a, y = *(const uint32_t *)b;
    return (x > y) - (x < y);
}

static uint32_t words[TELEGRAMS];

static void all_telegrams(void) {
    static guarded g;
    int count = 0;
    for (unsigned c = 0; c < 8; c++) {
        begin("all telegrams of cylinder %u", c);
        for (unsigned d = 0; d < 2; d++)
            for (unsigned t = d; t <= 1500; t++) {
                uint8_t x[32];
                int16_t l[32];
                int size = random_between(1, LARGEST);
                arm(&g);
                answer a = write_telegram(c, d, t, contents(&g), 32);
                word_of(number_of(c, d, t, 0), x);
                CHECK(a.refusal == 0 && a.penalty == 0 && a.gap == 0 && a.visits == 0 &&
                          a.place == 0,
                      "%u %u %u: %u", c, d, t, a.refusal);
                CHECK(only_first(&g, 32) && memcmp(contents(&g), x, 32) == 0,
                      "%u %u %u: another word", c, d, t);
                words[count] = 0;
                for (int j = 0; j < 32; j++) words[count] = words[count] << 1 | x[j];
                count++;
                send(contents(&g), size, l);
                heard h = read_default(l, 32);
                shows(h, c, d, t);
                /* the nearest other word differs in 8 places */
                CHECK(h.a.penalty == 0 && h.a.gap == 8 * (uint32_t)size, "penalty %u, gap %u",
                      h.a.penalty, h.a.gap);
                negate(l);
                shows_nothing(read_default(l, 32), 13, 0, 0, 0);
            }
        end();
    }
    begin("no two telegrams have one word");
    CHECK(count == TELEGRAMS, "%d telegrams", count);
    qsort(words, TELEGRAMS, sizeof words[0], by_value);
    for (int i = 1; i < TELEGRAMS; i++) CHECK(words[i - 1] != words[i], "%" PRIx32, words[i]);
    end();
}

/* what the reader has to say, by the walk as the rules write it */
static heard expected(uint32_t allowed, const int16_t *l) {
    static ref_walk_t w;
    uint8_t bits[32];
    heard h = {{0, 0, 0, 0, 0}, {0, 0, 0}};
    ref_walk(&w, 2, 5, l, allowed);
    if (w.out) {
        h.a.refusal = 6, h.a.visits = allowed;
        return h;
    }
    if (w.second_penalty == w.best_penalty) {
        h.a.refusal = 7, h.a.penalty = (uint32_t)w.best_penalty, h.a.visits = (uint32_t)w.visits;
        return h;
    }
    ref_pick(2, 5, w.best, bits);
    unsigned number = 0;
    for (int i = 0; i < 16; i++) number = number << 1 | bits[i];
    unsigned cylinder = number >> 13, direction = number >> 12 & 1, tilt = number >> 1 & 2047;
    if (number & 1)
        h.a.refusal = 13;
    else if (tilt > 1500)
        h.a.refusal = 14;
    else if (tilt == 0 && direction == 1)
        h.a.refusal = 15;
    else {
        h.a.penalty = (uint32_t)w.best_penalty,
        h.a.gap = (uint32_t)(w.second_penalty - w.best_penalty), h.a.visits = (uint32_t)w.visits;
        h.t.cylinder = cylinder, h.t.direction = direction, h.t.tilt = tilt;
    }
    return h;
}

static unsigned long met[17];

/* upright against the reference; turned over: 13 exactly where it was read, and no tilt */
static void both_ways(uint32_t allowed, int16_t *l) {
    heard h = read_within(allowed, l, 32), e = expected(allowed, l);
    CHECK(memcmp(&h.a, &e.a, sizeof h.a) == 0, "%u (%u %u %u), not %u (%u %u %u)", h.a.refusal,
          h.a.penalty, h.a.gap, h.a.visits, e.a.refusal, e.a.penalty, e.a.gap, e.a.visits);
    CHECK(memcmp(&h.t, &e.t, sizeof h.t) == 0, "another telegram");
    met[h.a.refusal < 17 ? h.a.refusal : 16]++;
    negate(l);
    heard o = read_within(allowed, l, 32);
    if (h.a.refusal == 0) shows_nothing(o, 13, 0, 0, 0);
    if (h.a.refusal == 6 || h.a.refusal == 7)
        shows_nothing(o, h.a.refusal, h.a.penalty, h.a.visits, 0);
    CHECK(!(h.a.refusal == 0 && o.a.refusal == 0), "shown both ways");
    negate(l);
}

static void with_noise(void) {
    static const int noise[] = {50, 120, 200, 400};
    for (int k = 0; k < 4; k++) {
        begin("telegrams with noise up to %d per cent", noise[k]);
        for (int i = 0; i < 150; i++) {
            unsigned c = (unsigned)random_below(8), d = (unsigned)random_below(2),
                     t = (unsigned)random_between(1, 1500);
            uint8_t x[32];
            int16_t l[32];
            word_of(number_of(c, d, t, 0), x);
            for (int j = 0; j < 32; j++)
                l[j] = (int16_t)((x[j] ? -300 : 300) + random_between(-3 * noise[k], 3 * noise[k]));
            both_ways(i % 5 == 0 ? (uint32_t)random_between(0, 300) : CINORBIS_DEFAULT_ALLOWANCE,
                      l);
            heard h = read_default(l, 32);
            CHECK(h.a.refusal != 6, "the default allowance was too small");
            /* noise below the signal spoils nothing that the sign shows */
            if (noise[k] < 100) shows(h, c, d, t);
        }
        end();
    }
    begin("readings of no telegram");
    for (int i = 0; i < 600; i++) {
        int16_t l[32];
        int most = i % 3 == 0 ? LARGEST : i % 3 == 1 ? 2 : 40;
        for (int j = 0; j < 32; j++) l[j] = (int16_t)random_between(-most, most);
        both_ways(i % 4 == 0 ? (uint32_t)random_between(0, 2000) : CINORBIS_DEFAULT_ALLOWANCE, l);
        CHECK(read_default(l, 32).a.refusal != 6, "the default allowance was too small");
    }
    CHECK(met[0] && met[6] && met[7] && met[13] && met[14], "not met: %lu %lu %lu %lu %lu", met[0],
          met[6], met[7], met[13], met[14]);
    end();
}

/* what a search finds, and its runner-up: the first says what the reader shows, the second
 * something else, or nothing */
static void after_search(void) {
    unsigned long shown = 0, second_shown = 0;
    begin("the bits that a search finds, and those of its runner-up");
    for (int i = 0; i < 1500; i++) {
        uint8_t x[32], bits[16], word[32], second[256];
        int16_t l[32];
        cinorbis_numbers n;
        word_of((unsigned)random_below(65536), x);
        for (int j = 0; j < 32; j++)
            l[j] = (int16_t)((x[j] ? -300 : 300) + random_between(-500, 500));
        heard h = read_default(l, 32);
        if (cinorbis_search(2, 5, l, 32, bits, 16, word, 32, second, &n)) continue;
        heard said = of_bits(bits, 16), other = of_bits(second, 16);
        CHECK(said.a.refusal == h.a.refusal && memcmp(&said.t, &h.t, sizeof h.t) == 0,
              "%u, the reader %u", said.a.refusal, h.a.refusal);
        CHECK(said.a.penalty == 0 && said.a.gap == 0 && said.a.visits == 0 && said.a.place == 0,
              "numbers without a search");
        CHECK(h.a.refusal ||
                  (h.a.penalty == n.penalty && h.a.gap == n.gap && h.a.visits == n.visits),
              "other numbers than the search's");
        CHECK(said.a.refusal || other.a.refusal || memcmp(&said.t, &other.t, sizeof said.t),
              "the runner-up says the same");
        shown += said.a.refusal == 0, second_shown += other.a.refusal == 0;
    }
    CHECK(shown && second_shown, "%lu and %lu shown", shown, second_shown);
    end();
}

static void bits_refusals(void) {
    static guarded g;
    uint8_t *bits = contents(&g);
    begin("the reader of bits: 2, then 4 with its place, then 13, 14, 15; nothing is written");
    for (size_t n = 0; n <= 40; n++) {
        arm(&g);
        if (n != 16) shows_nothing(of_bits(bits, n), 2, 0, 0, 0);
        CHECK(untouched(&g), "written");
    }
    for (unsigned j = 0; j < 16; j++)
        for (unsigned number = 0; number < 65536; number += 257) {
            arm(&g);
            bits_of(number, bits);
            bits[j] = (uint8_t)random_between(2, 255);
            if (j < 15) bits[15] = (uint8_t)random_between(2, 255);
            memcpy(g.before, g.all, sizeof g.all);
            shows_nothing(of_bits(bits, 16), 4, 0, 0, j);
            CHECK(untouched(&g), "written");
        }
    end();
}

/* every 16 bits, as bits and as a word without noise: shown, or refused by 13, then 14, then 15 */
static void every_number(void) {
    unsigned long shown = 0, marker = 0, tilts = 0, zero = 0;
    begin("every word of RM(2,5)");
    for (unsigned number = 0; number < 65536; number++) {
        uint8_t x[32], bits[16];
        int16_t l[32];
        unsigned c = number >> 13, d = number >> 12 & 1, t = number >> 1 & 2047;
        word_of(number, x);
        send(x, 1, l);
        heard h = read_within(CINORBIS_DEFAULT_ALLOWANCE, l, 32);
        bits_of(number, bits);
        heard said = of_bits(bits, 16);
        CHECK(said.a.refusal == h.a.refusal && memcmp(&said.t, &h.t, sizeof h.t) == 0,
              "%u as bits, %u as readings", said.a.refusal, h.a.refusal);
        CHECK(said.a.penalty == 0 && said.a.gap == 0 && said.a.visits == 0 && said.a.place == 0,
              "numbers without a search");
        if (number & 1)
            shows_nothing(h, 13, 0, 0, 0), marker++;
        else if (t > 1500)
            shows_nothing(h, 14, 0, 0, 0), tilts++;
        else if (t == 0 && d == 1)
            shows_nothing(h, 15, 0, 0, 0), zero++;
        else
            shows(h, c, d, t), shown++;
    }
    CHECK(shown == TELEGRAMS && marker == 32768 && tilts == 8 * 2 * 547 && zero == 8,
          "%lu %lu %lu %lu", shown, marker, tilts, zero);
    end();
}

static void writer_refusals(void) {
    static const uint32_t cylinders[] = {0, 1, 7, 8, 9, 1u << 31, UINT32_MAX},
                          directions[] = {0, 1, 2, 3, UINT32_MAX};
    static const uint32_t tilts[] = {0, 1, 1500, 1501, 2047, 2048, 65536, UINT32_MAX};
    static const size_t lengths[] = {32, 0, 16, 31, 33, 64};
    static guarded g;
    unsigned long given[17] = {0};
    begin("the writer: 3, then 14, 15, 16");
    for (size_t n = 0; n < 6; n++)
        for (size_t c = 0; c < 7; c++)
            for (size_t d = 0; d < 5; d++)
                for (size_t t = 0; t < 8; t++) {
                    uint32_t e = 0;
                    if (cylinders[c] > 7 || directions[d] > 1) e = 16;
                    if (tilts[t] == 0 && directions[d] == 1) e = 15;
                    if (tilts[t] > 1500) e = 14;
                    if (lengths[n] != 32) e = 3;
                    arm(&g);
                    answer a = write_telegram(cylinders[c], directions[d], tilts[t], contents(&g),
                                              lengths[n]);
                    CHECK(a.refusal == e && a.penalty == 0 && a.gap == 0 && a.visits == 0 &&
                              a.place == 0,
                          "%u, not %u", a.refusal, e);
                    CHECK(e ? untouched(&g) : only_first(&g, 32), "wrote under %u", e);
                    given[a.refusal < 17 ? a.refusal : 1]++;
                }
    CHECK(given[0] && given[3] && given[14] && given[15] && given[16], "a refusal was not met");
    end();
}

static void reader_refusals(void) {
    int16_t l[64];
    uint8_t x[32];
    word_of(number_of(5, 1, 1234, 0), x);
    begin("the reader: 2, then 4, then 6");
    for (size_t n = 0; n <= 64; n++) {
        if (n == 32) continue;
        memset(l, 0, sizeof l);
        shows_nothing(read_default(l, n), 2, 0, 0, 0);
        for (size_t j = 0; j < 64; j++) l[j] = INT16_MIN;
        shows_nothing(read_within(0, l, n), 2, 0, 0, 0);
    }
    for (unsigned j = 0; j < 32; j++) {
        send(x, 100, l);
        l[j] = INT16_MIN, l[31] = INT16_MIN;
        shows_nothing(read_default(l, 32), 4, 0, 0, j);
        shows_nothing(read_within(0, l, 32), 4, 0, 0, j);
    }
    end();
    begin("the reader: one visit too few, and all that are needed");
    send(x, 100, l);
    uint32_t visits = read_default(l, 32).a.visits;
    CHECK(visits > 0, "no visits");
    shows(read_within(visits, l, 32), 5, 1, 1234);
    shows_nothing(read_within(visits - 1, l, 32), 6, 0, visits - 1, 0);
    shows_nothing(read_within(0, l, 32), 6, 0, 0, 0);
    negate(l);
    shows_nothing(read_within(visits, l, 32), 13, 0, 0, 0);
    shows_nothing(read_within(visits - 1, l, 32), 6, 0, visits - 1, 0);
    memset(l, 0, sizeof l);
    shows_nothing(read_default(l, 32), 7, 0, 32 + 16, 0);
    end();
    begin("the whole tree is below the default allowance");
    CHECK(ref_tree(2, 5) == 131759 && ref_tree(2, 5) <= CINORBIS_DEFAULT_ALLOWANCE, "%llu visits",
          ref_tree(2, 5));
    end();
}

int main(void) {
    writer_refusals();
    reader_refusals();
    bits_refusals();
    every_number();
    after_search();
    all_telegrams();
    with_noise();
    return finish();
}
