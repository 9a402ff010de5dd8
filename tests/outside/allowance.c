/* The default allowance (C-17). The stored record tests/captures/long_walk.bin needs more visits
 * than the short calls allow and fewer than the program: its readings, taken from its bytes here,
 * are searched by the short calls, with the program's allowance, and just at the border, against
 * the walk by its text. And whatever is answered or tied under some allowance stays so, number by
 * number and byte by byte, under every larger one. allowance CAPTURE */
#include "call.h"
#include "check.h"
#include "reference.h"

#define STANDING 200000u /* what the short calls are to allow */
#define PROGRAM 1000000u /* what the program allows */

static guarded gb, gw;
static ref_walk_t walk;

static void arm_both(void) {
    arm(&gb);
    arm(&gw);
}

static void is_out(const char *what, answer a, uint32_t allowed) {
    CHECK(a.refusal == 6 && a.visits == allowed, "%s: refusal %u, visits %u", what, a.refusal,
          a.visits);
    CHECK(a.penalty == 0 && a.gap == 0 && a.place == 0, "%s: another number under 6", what);
    CHECK(untouched(&gb) && untouched(&gw), "%s: a refusal wrote", what);
}

/* the walk's answer: numbers and buffers */
static void is_found(const char *what, answer a, int r, int m, long long gap,
                     unsigned long long visits) {
    uint8_t bits[256], word[256];
    size_t n = (size_t)1 << m, k = (size_t)ref_k(r, m);
    ref_word(m, walk.best, word);
    ref_pick(r, m, walk.best, bits);
    CHECK(a.refusal == 0 && a.penalty == walk.best_penalty && a.gap == gap && a.visits == visits &&
              a.place == 0,
          "%s: refusal %u, visits %u", what, a.refusal, a.visits);
    CHECK(memcmp(contents(&gb), bits, k) == 0 && memcmp(contents(&gw), word, n) == 0,
          "%s: another word", what);
    CHECK(only_first(&gb, k) && only_first(&gw, n), "%s: wrote beyond", what);
}

static void long_walk(const uint8_t *bytes, size_t length) {
    int m = bytes[0] >> 4, r = bytes[0] & 15;
    size_t n = (size_t)1 << m, k = (size_t)ref_k(r, m), size = 1 + 3 * n / 2;
    int16_t l[256];
    for (size_t j = 0; j < n; j++) {
        const uint8_t *at = bytes + 1 + j / 2 * 3;
        int field = j % 2 ? (at[1] & 15) << 8 | at[2] : at[0] << 4 | at[1] >> 4;
        l[j] = (int16_t)(field < 2048 ? field : field - 4096);
    }
    ref_walk(&walk, r, m, l, PROGRAM);
    long long gap = walk.second_penalty - walk.best_penalty;
    uint32_t needs = (uint32_t)walk.visits;
    begin("a record that needs %u visits", needs);
    CHECK(size <= length && !walk.out && needs > STANDING && gap > 0,
          "the stored record is another");
    CHECK(CINORBIS_DEFAULT_ALLOWANCE == STANDING, "the header says %u", CINORBIS_DEFAULT_ALLOWANCE);
    arm_both();
    is_out("search", search((uint32_t)r, (uint32_t)m, l, n, contents(&gb), k, contents(&gw), n),
           STANDING);
    arm_both();
    is_out("early", early((uint32_t)r, (uint32_t)m, l, n, contents(&gb), k, contents(&gw), n),
           STANDING);
    arm_both();
    is_out("one too few",
           search_within((uint32_t)r, (uint32_t)m, needs - 1, l, n, contents(&gb), k, contents(&gw),
                         n),
           needs - 1);
    const uint32_t enough[3] = {needs, PROGRAM, UINT32_MAX};
    for (int t = 0; t < 3; t++) {
        arm_both();
        is_found("search_within",
                 search_within((uint32_t)r, (uint32_t)m, enough[t], l, n, contents(&gb), k,
                               contents(&gw), n),
                 r, m, gap, needs);
        arm_both();
        is_found("search_record",
                 search_record(enough[t], bytes, size, contents(&gb), k, contents(&gw), n), r, m,
                 gap, needs);
        arm_both();
        is_found("early_within",
                 early_within((uint32_t)r, (uint32_t)m, enough[t], l, n, contents(&gb), k,
                              contents(&gw), n),
                 r, m, 0, 0);
    }
    end();
}

typedef answer call(uint32_t, uint32_t, uint32_t, const int16_t *, size_t, uint8_t *, size_t,
                    uint8_t *, size_t);

/* the same buffers before both calls: the same answer and the same bytes after them */
static void kept(call *within, int r, int m, const int16_t *l, uint32_t allowed, uint32_t more,
                 unsigned long *met) {
    static guarded first_bits, first_word;
    size_t n = (size_t)1 << m, k = (size_t)ref_k(r, m);
    arm_both();
    answer a = within((uint32_t)r, (uint32_t)m, allowed, l, n, contents(&gb), k, contents(&gw), n);
    if (a.refusal == 6) return;
    met[a.refusal == 7]++;
    first_bits = gb;
    first_word = gw;
    memcpy(gb.all, gb.before, sizeof gb.all);
    memcpy(gw.all, gw.before, sizeof gw.all);
    answer b = within((uint32_t)r, (uint32_t)m, more, l, n, contents(&gb), k, contents(&gw), n);
    CHECK(memcmp(&a, &b, sizeof a) == 0, "RM(%d,%d), %u and %u allowed: refusal %u and %u", r, m,
          allowed, more, a.refusal, b.refusal);
    CHECK(memcmp(&first_bits, &gb, sizeof gb) == 0 && memcmp(&first_word, &gw, sizeof gw) == 0,
          "RM(%d,%d): other bytes", r, m);
}

static void larger_allowances(call *within, const char *name) {
    unsigned long met[2] = {0, 0};
    begin("a larger allowance, %s", name);
    for (int t = 0; t < 2000; t++) {
        int m = random_below(6), r = random_below(m + 1), loud = t % 3 == 0 ? 1 : LARGEST;
        int16_t l[256];
        for (int j = 0; j < 1 << m; j++) l[j] = (int16_t)random_between(-loud, loud);
        uint32_t allowed = (uint32_t)random_between(0, 400);
        kept(within, r, m, l, allowed, allowed + (uint32_t)random_between(1, 1000), met);
    }
    CHECK(met[0] > 100 && met[1] > 100, "%lu answers and %lu ties only", met[0], met[1]);
    end();
}

int main(int argc, char **argv) {
    static uint8_t bytes[CINORBIS_LARGEST_RECORD];
    FILE *f = argc == 2 ? fopen(argv[1], "rb") : NULL;
    size_t length = f ? fread(bytes, 1, sizeof bytes, f) : 0;
    if (length == 0) {
        puts("allowance: no capture");
        return 1;
    }
    fclose(f);
    long_walk(bytes, length);
    larger_allowances(search_within, "search");
    larger_allowances(early_within, "early answer");
    return finish();
}
