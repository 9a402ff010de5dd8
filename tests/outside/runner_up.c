/* The runner-up of the searches: against the walk by its text (all codes) and against brute force
 * over all words (k <= 12), on random readings with zeros and ties among them; its room past the
 * k-th byte; zeros under every refusal, whatever it held. */
#include "call.h"
#include "check.h"
#include "reference.h"

typedef struct {
    answer a;
    uint8_t bits[256], word[256], second[256];
} answered;

static guarded gb, gw, gs;

static void arm_all(void) {
    arm(&gb);
    arm(&gw);
    arm(&gs);
}

/* all 256 bytes from the i-th on are 0 */
static int zeros_from(const uint8_t *s, size_t i) {
    for (; i < 256; i++)
        if (s[i]) return 0;
    return 1;
}

/* what a search leaves in the guarded buffers: a runner-up of 256 bytes is always written, zeros
 * under a refusal and past the k-th */
static answered left(answer a, size_t n, size_t k) {
    answered s;
    s.a = a;
    CHECK(only_first(&gs, 256), "wrote beside the runner-up");
    CHECK(zeros_from(contents(&gs), a.refusal ? 0 : k), "refusal %u, room of the runner-up",
          a.refusal);
    if (a.refusal)
        CHECK(untouched(&gb) && untouched(&gw), "a refusal %u wrote", a.refusal);
    else
        CHECK(only_first(&gb, k) && only_first(&gw, n), "wrote outside");
    memcpy(s.bits, contents(&gb), 256);
    memcpy(s.word, contents(&gw), 256);
    memcpy(s.second, contents(&gs), 256);
    return s;
}

static answered run(int r, int m, uint32_t allowed, const int16_t *l) {
    size_t n = (size_t)1 << m, k = (size_t)ref_k(r, m);
    arm_all();
    return left(search_within_second((uint32_t)r, (uint32_t)m, allowed, l, n, contents(&gb), k,
                                     contents(&gw), n, contents(&gs)),
                n, k);
}

/* the second row that the walk by the text holds; a visit less, or a tie, and nothing is shown */
static void against_walk(int r, int m, const int16_t *l, unsigned long long limit) {
    static ref_walk_t w;
    size_t k = (size_t)ref_k(r, m);
    ref_walk(&w, r, m, l, limit);
    if (w.out) {
        CHECK(run(r, m, (uint32_t)limit, l).a.refusal == 6, "out of visits");
        return;
    }
    answered s = run(r, m, (uint32_t)w.visits, l);
    CHECK(run(r, m, (uint32_t)w.visits - 1, l).a.refusal == 6, "one visit less");
    CHECK(s.a.refusal == (w.best_penalty == w.second_penalty ? 7 : 0), "refusal %u", s.a.refusal);
    if (s.a.refusal) return;
    uint8_t bits[256];
    ref_pick(r, m, w.second, bits);
    CHECK(memcmp(s.second, bits, k) == 0, "another runner-up than the walk's");
    /* a larger allowance changes nothing of it; the short call gives the same */
    answered t = run(r, m, UINT32_MAX, l);
    CHECK(memcmp(s.second, t.second, 256) == 0, "another runner-up with a larger allowance");
    arm_all();
    size_t n = (size_t)1 << m;
    t = left(search_second((uint32_t)r, (uint32_t)m, l, n, contents(&gb), k, contents(&gw), n,
                           contents(&gs)),
             n, k);
    CHECK(t.a.refusal == 0 && memcmp(s.second, t.second, 256) == 0,
          "another runner-up by the short call");
}

/* its word has the next penalty and is not the best word; where one word alone has that penalty it
 * is that word */
static void against_all_words(int r, int m, const int16_t *l) {
    int n = 1 << m, k = ref_k(r, m), count = 0;
    ref_best_t b = ref_best(r, m, l);
    answered s = run(r, m, UINT32_MAX, l);
    uint8_t x[256], only[256] = {0};
    if (s.a.refusal) {
        CHECK(s.a.refusal == 7 && b.least == b.next, "refusal %u", s.a.refusal);
        return;
    }
    ref_encode(r, m, s.second, x);
    CHECK(ref_penalty(n, l, x) == b.next && (long long)s.a.penalty + (long long)s.a.gap == b.next,
          "penalty %lld of %lld", ref_penalty(n, l, x), b.next);
    CHECK(memcmp(x, s.word, (size_t)n) != 0, "the best word as runner-up");
    for (unsigned long w = 0; w < 1ul << k; w++) {
        uint8_t bits[256], y[256];
        for (int i = 0; i < k; i++) bits[i] = (uint8_t)((w >> i) & 1);
        ref_encode(r, m, bits, y);
        if (ref_penalty(n, l, y) == b.next) {
            count++;
            memcpy(only, bits, (size_t)k);
        }
    }
    CHECK(count > 1 || memcmp(only, s.second, (size_t)k) == 0,
          "one word has that penalty, and another is shown");
}

/* a record of 12-bit readings */
static size_t packed(int r, int m, const int16_t *l, uint8_t *bytes) {
    cinorbis_written written;
    return cinorbis_write_record((uint32_t)r, (uint32_t)m, 0, l, (size_t)1 << m, bytes,
                                 CINORBIS_LARGEST_RECORD, &written)
               ? 0
               : (size_t)written.next;
}

static void of_a_record(int r, int m, const int16_t *l) {
    uint8_t bytes[CINORBIS_LARGEST_RECORD];
    size_t length = packed(r, m, l, bytes), n = (size_t)1 << m, k = (size_t)ref_k(r, m);
    answered s = run(r, m, 20000, l);
    arm_all();
    answered t = left(search_record_second(20000, bytes, length, contents(&gb), k, contents(&gw), n,
                                           contents(&gs)),
                      n, k);
    CHECK(s.a.refusal == t.a.refusal && memcmp(s.second, t.second, 256) == 0,
          "record: refusal %u, %u", s.a.refusal, t.a.refusal);
    arm_all();
    t = left(search_record_second(20000, bytes, length - 1, contents(&gb), k, contents(&gw), n,
                                  contents(&gs)),
             n, k);
    CHECK(t.a.refusal == 8, "torn: %u", t.a.refusal);
}

/* near a word with noise; small, with zeros; one size */
static void make_readings(int r, int m, int kind, int16_t *l) {
    uint8_t x[256];
    random_word(r, m, x);
    for (int j = 0; j < 1 << m; j++) {
        switch (kind) {
        case 0: l[j] = (int16_t)((x[j] ? -60 : 60) + random_between(-75, 75)); break;
        case 1: l[j] = (int16_t)random_between(-2, 2); break;
        default: l[j] = (int16_t)((x[j] ? -1 : 1) * (random_below(12) ? 1 : -1)); break;
        }
    }
}

/* tests 1 to 4, on both calls */
static void refused(const char *what, uint32_t number, uint32_t r, uint32_t m, const int16_t *l,
                    size_t n, size_t k, size_t w) {
    arm_all();
    answered s = left(
        search_within_second(r, m, 1000, l, n, contents(&gb), k, contents(&gw), w, contents(&gs)),
        w, k);
    CHECK(s.a.refusal == number, "%s: %u", what, s.a.refusal);
    arm_all();
    s = left(search_second(r, m, l, n, contents(&gb), k, contents(&gw), w, contents(&gs)), w, k);
    CHECK(s.a.refusal == number, "%s, short call: %u", what, s.a.refusal);
}

int main(void) {
    int16_t l[256];
    for (int m = 0; m <= 8; m++)
        for (int r = 0; r <= m; r++) {
            int k = ref_k(r, m);
            begin("runner-up of RM(%d,%d)", r, m);
            for (int kind = 0; kind < 3; kind++)
                for (int i = 0; i < (m < 6 ? 40 : 3); i++) {
                    make_readings(r, m, kind, l);
                    against_walk(r, m, l, m < 6 ? 200000 : 2000);
                    of_a_record(r, m, l);
                    if (k <= 12 && m < 7) against_all_words(r, m, l);
                }
            end();
        }
    begin("the old best becomes second, though the old second ties with it");
    const int16_t doubtful[8] = {1, 1, 0, -1, 0, 0, 1, 0};
    answered s = run(1, 3, 21, doubtful);
    CHECK(s.a.refusal == 0 && s.a.penalty == 0 && s.a.gap == 1 && s.a.visits == 21, "refusal %u",
          s.a.refusal);
    CHECK(memcmp(s.bits, "\1\1\0\0", 4) == 0 && memcmp(s.second, "\0\0\0\0", 4) == 0, "other bits");
    const int16_t other[8] = {2, 2, -2, -1, 2, -1, 0, 2};
    s = run(1, 3, 21, other);
    CHECK(s.a.refusal == 0 && s.a.penalty == 2 && s.a.gap == 1 && s.a.visits == 21, "refusal %u",
          s.a.refusal);
    CHECK(memcmp(s.bits, "\1\1\0\0", 4) == 0 && memcmp(s.second, "\0\1\0\1", 4) == 0, "other bits");
    end();
    begin("zeros under 1 to 4");
    memset(l, 0, sizeof l);
    refused("m above 8", 1, 0, 9, l, 4, 3, 4);
    refused("r above m", 1, 3, 2, l, 4, 3, 4);
    refused("readings", 2, 1, 2, l, 3, 3, 4);
    refused("bits", 3, 1, 2, l, 4, 4, 4);
    refused("word", 3, 1, 2, l, 4, 3, 5);
    refused("a tie", 7, 1, 2, l, 4, 3, 4);
    l[2] = INT16_MIN;
    refused("a reading", 4, 1, 2, l, 4, 3, 4);
    end();
    begin("zeros under a record's refusals");
    const uint8_t pad[3] = {0x00, 0x00, 0x11}, code[3] = {0x90, 0, 0};
    arm_all();
    CHECK(left(search_record_second(9, pad, 3, contents(&gb), 1, contents(&gw), 1, contents(&gs)),
               1, 1)
                  .a.refusal == 9,
          "pad");
    arm_all();
    CHECK(left(search_record_second(9, code, 3, contents(&gb), 1, contents(&gw), 1, contents(&gs)),
               1, 1)
                  .a.refusal == 1,
          "code");
    arm_all();
    CHECK(left(search_record_second(9, code, 0, contents(&gb), 1, contents(&gw), 1, contents(&gs)),
               1, 1)
                  .a.refusal == 8,
          "no byte");
    end();
    return finish();
}
