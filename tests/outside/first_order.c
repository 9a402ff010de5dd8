/* First-order words: the call against all 2^(m+1) words by their definition as polynomials of
 * degree at most one, and against the search. */
#include "call.h"
#include "check.h"

static guarded gb, gw;

static answer first_order(uint32_t r, uint32_t m, const int16_t *l, size_t n_, uint8_t *bits,
                          size_t k, uint8_t *word, size_t w) {
    CALL(cinorbis_first_order, r, m, l, n_, bits, k, word, w);
}

/* bit j of the word a_0 + a_1 j_0 + .. + a_m j_(m-1), with a_i as bit i of name */
static int value(unsigned name, unsigned j) {
    return (__builtin_parity((name >> 1) & j) + (int)(name & 1)) % 2;
}

/* least and next penalty of all words, and the name of one with the least */
static unsigned brute(int m, const int16_t *l, uint32_t *least, uint32_t *next) {
    unsigned best = 0;
    *least = *next = UINT32_MAX;
    for (unsigned name = 0; name < 2u << m; name++) {
        uint32_t p = 0;
        for (unsigned j = 0; j < 1u << m; j++)
            if ((l[j] > 0 && value(name, j)) || (l[j] < 0 && !value(name, j)))
                p += (uint32_t)(l[j] < 0 ? -l[j] : l[j]);
        if (p < *least) {
            *next = *least;
            *least = p;
            best = name;
        } else if (p < *next) {
            *next = p;
        }
    }
    return best;
}

static void compared(int m, int largest, int rounds) {
    size_t n = (size_t)1 << m, k = (size_t)m + 1;
    int tied = 0, found = 0;
    begin("RM(1,%d), readings up to %d", m, largest);
    for (int t = 0; t < rounds; t++) {
        int16_t l[256];
        uint32_t least, next;
        uint8_t bits[16], word[256];
        for (size_t j = 0; j < n; j++) l[j] = (int16_t)random_between(-largest, largest);
        unsigned best = brute(m, l, &least, &next);
        arm(&gb);
        arm(&gw);
        answer a = first_order(1, (uint32_t)m, l, n, contents(&gb), k, contents(&gw), n);
        answer s = search_within(1, (uint32_t)m, UINT32_MAX, l, n, bits, k, word, n);
        CHECK(a.refusal == s.refusal && a.penalty == s.penalty && a.gap == s.gap, "%u %u %u",
              a.refusal, a.penalty, a.gap);
        CHECK(a.penalty == least && a.visits == 0 && a.place == 0, "penalty %u of %u, visits %u",
              a.penalty, least, a.visits);
        if (least == next) {
            tied++;
            CHECK(a.refusal == CINORBIS_TIED && a.gap == 0 && untouched(&gb) && untouched(&gw),
                  "a tie");
            continue;
        }
        found++;
        CHECK(a.refusal == CINORBIS_DONE && a.gap == next - least, "gap %u of %u", a.gap,
              next - least);
        for (size_t j = 0; j < n; j++)
            CHECK(contents(&gw)[j] == value(best, (unsigned)j), "word bit %zu", j);
        CHECK(memcmp(contents(&gb), bits, k) == 0 && memcmp(contents(&gw), word, n) == 0,
              "not as the search");
        CHECK(only_first(&gb, k) && only_first(&gw, n), "wrote beyond the buffers");
    }
    CHECK(found > 0 && (largest > 1 || tied > 0), "%d found, %d tied", found, tied);
    end();
}

static void refused(const char *what, answer a, uint32_t number, uint32_t place) {
    begin("refused: %s", what);
    CHECK(a.refusal == number && a.place == place && a.penalty == 0 && a.gap == 0 && a.visits == 0,
          "%u at %u", a.refusal, a.place);
    CHECK(untouched(&gb) && untouched(&gw), "wrote");
    end();
}

static void refusals(void) {
    int16_t l[256] = {0};
    uint8_t *b = contents(&gb), *w = contents(&gw);
    arm(&gb);
    arm(&gw);
    l[3] = l[6] = INT16_MIN;
    refused("r is 0", first_order(0, 3, l, 8, b, 4, w, 8), 1, 0);
    refused("r is 2", first_order(2, 3, l, 8, b, 4, w, 8), 1, 0);
    refused("m is 0", first_order(1, 0, l, 1, b, 2, w, 1), 1, 0);
    refused("m is 9", first_order(1, 9, l, 8, b, 4, w, 8), 1, 0);
    refused("readings too few", first_order(1, 3, l, 7, b, 5, w, 8), 2, 0);
    refused("bits too many", first_order(1, 3, l, 8, b, 5, w, 8), 3, 0);
    refused("a word too short", first_order(1, 3, l, 8, b, 4, w, 7), 3, 0);
    refused("a reading beyond the largest", first_order(1, 3, l, 8, b, 4, w, 8), 4, 3);
}

int main(void) {
    for (int m = 1; m <= 8; m++) {
        compared(m, CINORBIS_LARGEST_READING, m < 7 ? 300 : 60);
        compared(m, 1, m < 7 ? 300 : 60);
    }
    refusals();
    return finish();
}
