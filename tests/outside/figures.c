/* Every bench figure, those that are proved as well, run through the library. */
#include "call.h"
#include "check.h"
#include "reference.h"

static uint8_t bits[CINORBIS_LARGEST_N], word[CINORBIS_LARGEST_N];

static void wipe(void) {
    memset(bits, 7, sizeof bits);
    memset(word, 7, sizeof word);
}

static int is(const uint8_t *row, const char *text) {
    for (size_t i = 0; text[i]; i++)
        if (row[i] != text[i] - '0') return 0;
    return 1;
}

static void to_row(const char *text, uint8_t *row) {
    for (size_t i = 0; text[i]; i++) row[i] = (uint8_t)(text[i] - '0');
}

static answer run(uint32_t r, uint32_t m, uint32_t allowed, const int16_t *l) {
    wipe();
    return search_within(r, m, allowed, l, 1u << m, bits, (size_t)ref_k((int)r, (int)m), word,
                         1u << m);
}

static void encodes(uint32_t r, uint32_t m, const char *information, const char *expected) {
    uint8_t given[CINORBIS_LARGEST_N];
    begin("RM(%u,%u), bits %s give %s", r, m, information, expected);
    to_row(information, given);
    wipe();
    answer a = encode(r, m, given, strlen(information), word, 1u << m);
    CHECK(a.refusal == 0 && is(word, expected), "refusal %u", a.refusal);
    answer b = inverse(r, m, word, 1u << m, bits, strlen(information));
    CHECK(b.refusal == 0 && is(bits, information), "refusal %u", b.refusal);
    end();
}

/* encode takes exactly k bits */
static void dimension(uint32_t r, uint32_t m, size_t k) {
    uint8_t given[CINORBIS_LARGEST_N] = {0};
    begin("k of RM(%u,%u) is %zu", r, m, k);
    CHECK(encode(r, m, given, k, word, 1u << m).refusal == 0, "k");
    CHECK(encode(r, m, given, k - 1, word, 1u << m).refusal == 2, "k - 1");
    CHECK(encode(r, m, given, k + 1, word, 1u << m).refusal == 2, "k + 1");
    end();
}

int main(void) {
    const int16_t sample[4] = {5, -2, 3, 1}, negated[4] = {-5, 2, -3, -1}, three[1] = {3},
                  zero[1] = {0};
    answer a;

    dimension(0, 0, 1);
    dimension(1, 2, 3);
    dimension(1, 3, 4);
    dimension(2, 5, 16);
    dimension(4, 8, 163);
    encodes(1, 2, "011", "0101");
    encodes(1, 3, "0001", "11111111");
    encodes(1, 3, "1000", "11110000");

    /* one bit of u at a time is refused exactly at the frozen indices */
    begin("RM(1,3) has information indices 3, 5, 6, 7");
    for (int i = 0; i < 8; i++) {
        uint8_t u[8] = {0}, x[8];
        u[i] = 1;
        ref_word(3, u, x);
        a = inverse(1, 3, x, 8, bits, 4);
        int information = i == 3 || i == 5 || i == 6 || i == 7;
        CHECK(information ? a.refusal == 0 : a.refusal == 5 && a.place == (uint64_t)i, "index %d",
              i);
    }
    end();

    begin("RM(1,2), word 1000 is refused as 5 at index 0");
    to_row("1000", word);
    a = inverse(1, 2, word, 4, bits, 3);
    CHECK(a.refusal == 5 && a.place == 0 && a.penalty == 0 && a.gap == 0 && a.visits == 0, "%u",
          a.refusal);
    end();

    begin("RM(1,2), readings 5 -2 3 1");
    a = run(1, 2, 1000000, sample);
    CHECK(a.refusal == 0 && is(bits, "011") && is(word, "0101"), "%u", a.refusal);
    CHECK(a.penalty == 1 && a.gap == 1 && a.visits == 9 && a.place == 0, "%u %u %u", a.penalty,
          a.gap, a.visits);
    a = run(1, 2, 9, sample);
    CHECK(a.refusal == 0 && a.visits == 9, "allowance 9: %u", a.refusal);
    a = run(1, 2, 8, sample);
    CHECK(a.refusal == 6 && a.visits == 8 && a.penalty == 0 && a.gap == 0, "allowance 8: %u",
          a.refusal);
    CHECK(bits[0] == 7 && word[0] == 7, "written under 6");
    a = run(1, 2, 0, sample);
    CHECK(a.refusal == 6 && a.visits == 0, "allowance 0: %u", a.refusal);
    a = run(1, 2, UINT32_MAX, sample);
    CHECK(a.refusal == 0 && a.visits == 9, "largest allowance: %u", a.refusal);
    end();

    begin("the same negated");
    a = run(1, 2, 1000000, negated);
    CHECK(a.refusal == 0 && is(bits, "010") && is(word, "1010") && a.penalty == 1 && a.gap == 1,
          "%u", a.refusal);
    end();

    begin("RM(0,0), reading 3 and reading 0");
    a = run(0, 0, 2, three);
    CHECK(a.refusal == 0 && bits[0] == 0 && word[0] == 0 && a.penalty == 0 && a.gap == 3 &&
              a.visits == 2,
          "%u", a.refusal);
    a = run(0, 0, 2, zero);
    CHECK(a.refusal == 7 && a.penalty == 0 && a.gap == 0 && a.visits == 2 && bits[0] == 7 &&
              word[0] == 7,
          "%u", a.refusal);
    a = run(0, 0, 1, zero);
    CHECK(a.refusal == 6 && a.visits == 1, "%u", a.refusal);
    end();

    begin("all readings 0: tied with penalty 0 and n + k visits, for every code");
    for (uint32_t m = 0; m <= 8; m++)
        for (uint32_t r = 0; r <= m; r++) {
            int16_t l[256] = {0};
            a = run(r, m, 1000000, l);
            CHECK(a.refusal == 7 && a.penalty == 0 &&
                      a.visits == (1u << m) + (unsigned)ref_k((int)r, (int)m),
                  "RM(%u,%u)", r, m);
        }
    end();

    begin("rims of readings, r and m");
    static const int edges[] = {2047, 2048, 4096, 32766, 32767};
    for (int e = 0; e < 5; e++)
        for (int sign = -1; sign <= 1; sign += 2) {
            int16_t l[4] = {1, 1, (int16_t)(sign * edges[e]), 1};
            CHECK(run(1, 2, 1000, l).refusal != 4, "%d", sign * edges[e]);
        }
    int16_t beyond[4] = {1, 32767, -32768, -32768};
    a = run(1, 2, 1000, beyond);
    CHECK(a.refusal == 4 && a.place == 2, "-32768: %u at %u", a.refusal, a.place);
    int16_t least[1] = {INT16_MIN}, largest[1] = {INT16_MAX};
    CHECK(run(0, 0, 10, least).refusal == 4, "-32768");
    CHECK(run(0, 0, 10, largest).refusal == 0, "32767");
    int16_t many[512];
    for (int i = 0; i < 512; i++) many[i] = 1;
    CHECK(search(8, 8, many, 256, bits, 256, word, 256).refusal == 0, "m = 8, r = 8");
    CHECK(search(8, 9, many, 512, bits, 256, word, 256).refusal == 1, "m = 9");
    CHECK(search(3, 2, many, 4, bits, 4, word, 4).refusal == 1, "r = m + 1");
    CHECK(search(UINT32_MAX, UINT32_MAX, many, 4, bits, 4, word, 4).refusal == 1,
          "largest r and m");
    CHECK(search(0, UINT32_MAX, many, 4, bits, 4, word, 4).refusal == 1, "largest m");
    end();

    begin("slips of a fitter");
    const int16_t slip[2] = {-1, 1};
    a = run(1, 1, 1000, slip);
    CHECK(a.refusal == 0 && is(word, "10"), "RM(1,1), readings -1 1");
    a = quick(1, 1, slip, 2, bits, 2, word, 2);
    CHECK(a.refusal == 0 && is(word, "10"), "the quick reading too");
    const int16_t pair[8] = {1, 1, 0, -1, 0, 0, 1, 0};
    a = run(1, 3, 1000, pair);
    CHECK(a.refusal == 0 && is(bits, "1100") && a.penalty == 0 && a.gap == 1 && a.visits == 21,
          "a better one after the first equal pair");
    const int16_t missed[8] = {0, 0, 0, -1, 1, 1, 1, 0};
    a = quick(1, 3, missed, 8, bits, 4, word, 8);
    CHECK(a.refusal == 0 && is(word, "00000000") && a.penalty == 1, "the quick reading may miss");
    a = run(1, 3, 1000, missed);
    CHECK(a.refusal == 0 && is(word, "11110000") && a.penalty == 0 && a.gap == 1 && a.visits == 21,
          "the search does not");
    end();

    begin("the premise of demand 3 is needed: 25 visits against 21");
    const int16_t first[8] = {0, -2, -1, 1, -1, 0, 0, 0};
    int16_t second[8];
    const char *c = "11001100";
    for (int j = 0; j < 8; j++) second[j] = (int16_t)(c[j] == '1' ? -first[j] : first[j]);
    CHECK(run(1, 3, 1000, first).visits == 25, "%u", run(1, 3, 1000, first).visits);
    CHECK(run(1, 3, 1000, second).visits == 21, "%u", run(1, 3, 1000, second).visits);
    end();
    return finish();
}
