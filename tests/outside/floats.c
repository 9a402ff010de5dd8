/* The search of floats beside the search of the whole numbers that they are: all codes, minus zeros
 * among them, allowances from none to all, every number and every byte compared. What is no
 * reading, at chosen places and several at once; the order of several faults. An entry by its bits:
 * `floats all` tries every one of the 2^32 (by hand: some minutes), else one in some thousands. */
#include "call.h"
#include "check.h"
#include "reference.h"

static guarded gb, gw, gs, hb, hw, hs;

static answer search_float(uint32_t r, uint32_t m, const float *l, size_t n_, uint8_t *bits,
                           size_t k, uint8_t *word, size_t w, uint8_t *second) {
    CALL(cinorbis_search_float, r, m, l, n_, bits, k, word, w, second);
}

static answer search_float_within(uint32_t r, uint32_t m, uint32_t allowed, const float *l,
                                  size_t n_, uint8_t *bits, size_t k, uint8_t *word, size_t w,
                                  uint8_t *second) {
    CALL(cinorbis_search_float_within, r, m, allowed, l, n_, bits, k, word, w, second);
}

static float by_bits(uint32_t bits) {
    float x;
    memcpy(&x, &bits, sizeof x);
    return x;
}

/* a whole number in range, judged by the bits alone: sign, exponent, and no 1 below the point */
static int is_reading(uint32_t bits) {
    uint32_t size = bits & 0x7fffffff, exponent = size >> 23, fraction = size & 0x7fffff;
    if (size == 0) return 1;
    if (exponent < 127 || exponent > 141) return 0;
    uint32_t below = 23 - (exponent - 127);
    return (fraction & ((1u << below) - 1)) == 0;
}

/* the same numbers; minus zero for some of the zeros */
static void as_floats(int n, const int16_t *l, float *f) {
    for (int j = 0; j < n; j++)
        f[j] = l[j] == 0 && random_below(2) ? by_bits(0x80000000) : (float)l[j];
}

static int same(answer a, answer b) {
    return a.refusal == b.refusal && a.penalty == b.penalty && a.gap == b.gap &&
           a.visits == b.visits && a.place == b.place;
}

static unsigned long found, out_of_visits, tied;

/* both buffers begin with the same bytes; afterwards they are compared whole, guards too */
static void arm_both(void) {
    arm(&gb);
    arm(&gw);
    arm(&gs);
    hb = gb;
    hw = gw;
    hs = gs;
}

static void compare_buffers(answer a, answer b) {
    CHECK(same(a, b), "floats %u %u %u %u %u, whole numbers %u %u %u %u %u", a.refusal, a.penalty,
          a.gap, a.visits, a.place, b.refusal, b.penalty, b.gap, b.visits, b.place);
    CHECK(memcmp(gb.all, hb.all, sizeof gb.all) == 0, "other bits");
    CHECK(memcmp(gw.all, hw.all, sizeof gw.all) == 0, "another word");
    CHECK(memcmp(gs.all, hs.all, sizeof gs.all) == 0, "another runner-up");
}

static answer beside(int r, int m, uint32_t allowed, const int16_t *l) {
    size_t n = (size_t)1 << m, k = (size_t)ref_k(r, m);
    float f[256];
    as_floats((int)n, l, f);
    arm_both();
    answer a = search_float_within((uint32_t)r, (uint32_t)m, allowed, f, n, contents(&gb), k,
                                   contents(&gw), n, contents(&gs));
    answer b = search_within_second((uint32_t)r, (uint32_t)m, allowed, l, n, contents(&hb), k,
                                    contents(&hw), n, contents(&hs));
    compare_buffers(a, b);
    if (allowed == CINORBIS_DEFAULT_ALLOWANCE) {
        arm_both();
        a = search_float((uint32_t)r, (uint32_t)m, f, n, contents(&gb), k, contents(&gw), n,
                         contents(&gs));
        b = search_second((uint32_t)r, (uint32_t)m, l, n, contents(&hb), k, contents(&hw), n,
                          contents(&hs));
        compare_buffers(a, b);
    }
    found += a.refusal == 0;
    out_of_visits += a.refusal == 6;
    tied += a.refusal == 7;
    return a;
}

/* full range; small with zeros; near a word with noise; rims */
static void make_readings(int r, int m, int kind, int16_t *l) {
    uint8_t x[256];
    random_word(r, m, x);
    for (int j = 0; j < 1 << m; j++) {
        switch (kind) {
        case 0: l[j] = random_reading(); break;
        case 1: l[j] = (int16_t)random_between(-2, 2); break;
        case 2: l[j] = (int16_t)((x[j] ? -9000 : 9000) + random_between(-11000, 11000)); break;
        default: l[j] = (int16_t)((x[j] ? -1 : 1) * (random_below(9) ? LARGEST : -LARGEST)); break;
        }
    }
}
#define KINDS 4

static void all_codes(void) {
    int16_t l[256];
    for (int m = 0; m <= 8; m++)
        for (int r = 0; r <= m; r++) {
            begin("RM(%d,%d), floats beside whole numbers", r, m);
            for (int t = 0; t < (m <= 5 ? 60 : 12); t++) {
                make_readings(r, m, t % KINDS, l);
                answer a = beside(r, m, m <= 5 ? CINORBIS_DEFAULT_ALLOWANCE : 3000, l);
                if (a.refusal == 0 || a.refusal == 7) {
                    beside(r, m, a.visits, l);
                    CHECK(beside(r, m, a.visits - 1, l).refusal == 6, "one visit less");
                }
                beside(r, m, (uint32_t)random_below(600), l);
                beside(r, m, 0, l);
            }
            end();
        }
    begin("found, both refusals");
    CHECK(found > 1000 && out_of_visits > 1000 && tied > 50,
          "%lu found, %lu out of visits, %lu tied", found, out_of_visits, tied);
    end();
}

/* fractions, subnormals, beyond either end, halves near 2^23, infinities, NaNs */
static const uint32_t bad[] = {
    0x3f000000, 0xbf000000, 0x00000001, 0x80000001, 0x007fffff, 0x00800000, 0x3dcccccd, 0x3f800001,
    0xbf7fffff, 0x46fffeff, 0x46ffff00, 0x47000000, 0xc7000000, 0xc6ffff00, 0x4b000000, 0xcafffffe,
    0x4b400000, 0x4b800000, 0xcb800000, 0x5f000000, 0x7f7fffff, 0xff7fffff, 0x7f800000, 0xff800000,
    0x7fc00000, 0xffc00000, 0x7f800001, 0xff800001, 0x7fffffff, 0xffffffff};
#define BAD (sizeof bad / sizeof bad[0])

/* refused as 4 at this place, all else as it was */
static void refused_at(int r, int m, uint32_t allowed, const float *f, size_t place) {
    size_t n = (size_t)1 << m, k = (size_t)ref_k(r, m);
    arm(&gb);
    arm(&gw);
    arm(&gs);
    answer a = search_float_within((uint32_t)r, (uint32_t)m, allowed, f, n, contents(&gb), k,
                                   contents(&gw), n, contents(&gs));
    CHECK(a.refusal == 4 && a.place == place && a.penalty == 0 && a.gap == 0 && a.visits == 0,
          "refusal %u, place %u of %zu", a.refusal, a.place, place);
    CHECK(untouched(&gb) && untouched(&gw) && only_first(&gs, 256), "a refusal wrote");
    for (size_t i = 0; i < 256; i++) CHECK(contents(&gs)[i] == 0, "a runner-up under a refusal");
}

static void bad_entries(void) {
    int16_t l[256];
    float f[256];
    for (int m = 0; m <= 8; m += m == 5 ? 3 : 1) {
        begin("m = %d, what is no reading", m);
        int n = 1 << m, r = random_between(0, m);
        for (size_t b = 0; b < BAD; b++) {
            make_readings(r, m, 0, l);
            as_floats(n, l, f);
            int place = b == 0 ? 0 : b == 1 ? n - 1 : random_below(n);
            f[place] = by_bits(bad[b]);
            refused_at(r, m, (uint32_t)random_below(2) * 1000, f, (size_t)place);
            int second = random_below(n);
            f[second] = by_bits(bad[random_below((int)BAD)]);
            refused_at(r, m, 0, f, (size_t)(second < place ? second : place));
        }
        end();
    }
}

/* the first fault that the rules name wins: 1, 2, 3, 4, then 6 */
static void several_faults(void) {
    float f[257];
    for (int j = 0; j < 257; j++) f[j] = (float)(j % 5 - 2);
    begin("several faults");
    for (int faults = 0; faults < 32; faults++) {
        uint32_t r = 2, m = faults & 1 ? 9 : 5;
        size_t n = faults & 2 ? 31 : 32, k = faults & 4 ? 17 : 16;
        f[3] = faults & 8 ? by_bits(0x7fc00000) : 1;
        uint32_t expected = faults & 1    ? 1
                            : faults & 2  ? 2
                            : faults & 4  ? 3
                            : faults & 8  ? 4
                            : faults & 16 ? 6
                                          : 0;
        arm(&gb);
        arm(&gw);
        arm(&gs);
        answer a = search_float_within(r, m, faults & 16 ? 0 : UINT32_MAX, f, n, contents(&gb), k,
                                       contents(&gw), 32, contents(&gs));
        CHECK(a.refusal == expected || (expected == 0 && a.refusal == 7),
              "faults %d: refusal %u, not %u", faults, a.refusal, expected);
        CHECK(a.place == (expected == 4 ? 3u : 0u), "faults %d: place %u", faults, a.place);
        if (a.refusal)
            CHECK(untouched(&gb) && untouched(&gw), "faults %d: a refusal wrote", faults);
    }
    end();
}

/* one float is the whole input of RM(0,0): its bits say whether it is refused */
static unsigned long entry(uint32_t bits) {
    float x = by_bits(bits);
    uint8_t b, w, second[256];
    cinorbis_numbers numbers;
    uint32_t refusal = cinorbis_search_float(0, 0, &x, 1, &b, 1, &w, 1, second, &numbers);
    CHECK((refusal == 4) == !is_reading(bits), "float %08" PRIx32 ": refusal %u", bits, refusal);
    return refusal != 4;
}

static void entries(int all) {
    begin("%s entry by its bits", all ? "every" : "an");
    unsigned long passed = 0;
    for (uint64_t bits = 0; bits < (uint64_t)1 << 32; bits += all ? 1 : 4093)
        passed += entry((uint32_t)bits);
    for (int z = -LARGEST - 1; z <= LARGEST + 1 && !all; z++) {
        float x = (float)z;
        uint32_t bits;
        memcpy(&bits, &x, sizeof bits);
        CHECK(entry(bits) == (z >= -LARGEST && z <= LARGEST), "%d", z);
    }
    CHECK(!all || passed == 65536, "%lu pass: 65535 numbers, and minus zero", passed);
    if (all) printf("%lu of 2^32 pass\n", passed);
    end();
}

int main(int argc, char **argv) {
    if (argc > 1 && strcmp(argv[1], "all") == 0) {
        entries(1);
        return finish();
    }
    all_codes();
    bad_entries();
    several_faults();
    entries(0);
    return finish();
}
