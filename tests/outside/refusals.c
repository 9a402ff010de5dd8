/* Refusals and their order, with several faults at once; on refusal every buffer keeps its bytes,
 * and the answer carries just what the rules say. */
#include "call.h"
#include "check.h"
#include "reference.h"

static guarded gb, gw;

static void arm_both(void) {
    arm(&gb);
    arm(&gw);
}

/* only the refusal and the place are given, and nothing was written */
static void refused(answer a, uint32_t number, uint64_t place) {
    CHECK(a.refusal == number && a.place == place, "%u at %u, not %u at %" PRIu64, a.refusal,
          a.place, number, place);
    CHECK(a.penalty == 0 && a.gap == 0 && (a.visits == 0 || number == 6), "%u %u %u", a.penalty,
          a.gap, a.visits);
    CHECK(untouched(&gb) && untouched(&gw), "wrote");
}

/* the number that the faults ask for: parameters, input length, output length, entry */
static uint32_t expected(int bad_code, int bad_input, int bad_output, int bad_entry) {
    if (bad_code) return 1;
    if (bad_input) return 2;
    if (bad_output) return 3;
    return bad_entry ? 4 : 0;
}

static void codes_and_lengths(void) {
    static const uint32_t bad_r[] = {3, 9, 0, UINT32_MAX, 4}, bad_m[] = {2, 8, 9, UINT32_MAX, 3};
    static const int off[] = {0, -1, 1, 4};
    begin("every mixture of faults, in the order of the table");
    for (int m = 0; m <= 4; m++)
        for (int r = 0; r <= m; r++)
            for (int code = 0; code < 6; code++)
                for (int in = 0; in < 4; in++)
                    for (int ob = 0; ob < 4; ob++)
                        for (int ow = 0; ow < 4; ow++)
                            for (int entry = 0; entry < 2; entry++) {
                                uint32_t R = code ? bad_r[code - 1] : (uint32_t)r,
                                         M = code ? bad_m[code - 1] : (uint32_t)m;
                                size_t n = (size_t)1 << m, k = (size_t)ref_k(r, m);
                                if (off[in] < 0 && (int)k + off[in] < 0) continue;
                                size_t ni = n + (size_t)off[in], nb = k + (size_t)off[ob],
                                       nw = n + (size_t)off[ow];
                                int16_t l[64];
                                uint8_t x[64], given[64];
                                for (int j = 0; j < 64; j++) l[j] = random_reading();
                                memset(x, 0, sizeof x);
                                memset(given, 0, sizeof given);
                                size_t at = (size_t)random_below((int)n),
                                       at_bits = (size_t)random_below((int)k);
                                if (entry) {
                                    l[at] = INT16_MIN;
                                    x[at] = (uint8_t)random_between(2, 255);
                                    given[at_bits] = (uint8_t)random_between(2, 255);
                                    /* a second bad entry after the first changes nothing */
                                    l[63] = INT16_MIN;
                                }
                                uint32_t e = expected(code, off[in], off[ob] || off[ow], entry);
                                if (e) {
                                    arm_both();
                                    refused(search_within(R, M, UINT32_MAX, l, ni, contents(&gb),
                                                          nb, contents(&gw), nw),
                                            e, e == 4 ? at : 0);
                                    refused(
                                        search(R, M, l, ni, contents(&gb), nb, contents(&gw), nw),
                                        e, e == 4 ? at : 0);
                                    refused(
                                        quick(R, M, l, ni, contents(&gb), nb, contents(&gw), nw), e,
                                        e == 4 ? at : 0);
                                }
                                e = expected(code, off[in], off[ow], entry);
                                if (e) {
                                    arm_both();
                                    refused(
                                        encode(R, M, given, k + (size_t)off[in], contents(&gw), nw),
                                        e, e == 4 ? at_bits : 0);
                                }
                                e = expected(code, off[in], off[ob], entry);
                                if (e) {
                                    arm_both();
                                    refused(inverse(R, M, x, ni, contents(&gb), nb), e,
                                            e == 4 ? at : 0);
                                }
                            }
    end();
}

static void bytes_of_bits(void) {
    begin("a bit byte from 2 to 255 is refused as 4, at the lowest place");
    for (int b = 2; b < 256; b++)
        for (int at = 0; at < 4; at++) {
            uint8_t x[4] = {1, 0, 1, 0};
            x[at] = (uint8_t)b;
            x[3] = (uint8_t)b;
            arm_both();
            refused(inverse(1, 2, x, 4, contents(&gb), 3), 4, (uint64_t)at);
            if (at < 3) refused(encode(1, 2, x, 3, contents(&gw), 4), 4, (uint64_t)at);
        }
    end();
    begin("empty buffers where none may be empty");
    arm_both();
    refused(encode(1, 2, contents(&gb), 0, contents(&gw), 0), 2, 0);
    refused(encode(3, 2, contents(&gb), 0, contents(&gw), 0), 1, 0);
    refused(inverse(1, 2, contents(&gw), 0, contents(&gb), 0), 2, 0);
    end();
}

static void search_refusals(void) {
    begin("6 before 7; 6 carries the allowance, 7 the penalty and the visits");
    const int16_t zeros[4] = {0, 0, 0, 0};
    for (uint32_t allowed = 0; allowed < 12; allowed++) {
        arm_both();
        answer a = search_within(1, 2, allowed, zeros, 4, contents(&gb), 3, contents(&gw), 4);
        CHECK(untouched(&gb) && untouched(&gw), "wrote");
        if (allowed < 7)
            CHECK(a.refusal == 6 && a.visits == allowed && a.penalty == 0 && a.gap == 0 &&
                      a.place == 0,
                  "%u", a.refusal);
        else
            CHECK(a.refusal == 7 && a.visits == 7 && a.penalty == 0 && a.gap == 0 && a.place == 0,
                  "%u", a.refusal);
    }
    const int16_t tied[2] = {3, 3}; /* RM(0,1) with readings 3, -3 is tied at 3 */
    const int16_t even[2] = {3, -3};
    answer a = search(0, 1, even, 2, contents(&gb), 1, contents(&gw), 2);
    CHECK(a.refusal == 7 && a.penalty == 3 && a.gap == 0 && untouched(&gb) && untouched(&gw),
          "%u %u", a.refusal, a.penalty);
    a = search(0, 1, tied, 2, contents(&gb), 1, contents(&gw), 2);
    CHECK(a.refusal == 0 && a.penalty == 0 && a.gap == 6, "%u %u %u", a.refusal, a.penalty, a.gap);
    end();
    begin("the short call allows 200,000 visits");
    int16_t l[256];
    int met = 0;
    for (int t = 0; t < 3; t++) {
        for (int j = 0; j < 256; j++) l[j] = random_reading();
        arm_both();
        a = search(4, 8, l, 256, contents(&gb), 163, contents(&gw), 256);
        if (a.refusal == 6) {
            met++;
            CHECK(a.visits == 200000 && untouched(&gb) && untouched(&gw), "%u", a.visits);
        }
    }
    CHECK(met > 0, "no random reading of RM(4,8) ran out");
    end();
}

/* record bytes from fields */
static size_t record_bytes(int r, int m, const int *field, int pad, uint8_t *out) {
    size_t n = (size_t)1 << m, at = 0;
    out[at++] = (uint8_t)(m << 4 | r);
    for (size_t j = 0; j < n; j += 2) {
        unsigned a = (unsigned)field[j] & 0xfff, b = j + 1 < n ? (unsigned)field[j + 1] & 0xfff : 0;
        out[at++] = (uint8_t)(a >> 4);
        out[at++] = (uint8_t)((a & 15) << 4 | (j + 1 < n ? b >> 8 : (unsigned)pad));
        if (j + 1 < n) out[at++] = (uint8_t)b;
    }
    return at;
}

static void records(void) {
    begin("records: 1, 8, 9, 3 in this order, for every mixture; never 4, the bottom rail is read "
          "as -2,047");
    for (int m = 0; m <= 3; m++)
        for (int r = 0; r <= m; r++)
            for (int faults = 0; faults < 32; faults++) {
                int bad_code = faults & 1, torn = faults >> 1 & 1,
                    pad = (faults >> 2 & 1) && m == 0, bad_out = faults >> 3 & 1,
                    rail = faults >> 4 & 1;
                int field[8], at = random_below(1 << m);
                uint8_t bytes[64];
                for (int j = 0; j < 8; j++) field[j] = random_between(-2047, 2047);
                if (rail) field[at] = -2048;
                size_t size = record_bytes(r, m, field, pad ? random_between(1, 15) : 0, bytes);
                if (bad_code) bytes[0] = (uint8_t)(random_below(2) ? 0x90 + r : m << 4 | (m + 1));
                size_t given = torn ? (size_t)random_between(1, (int)size - 1)
                                    : size + (size_t)random_below(5);
                size_t n = (size_t)1 << m, k = (size_t)ref_k(r, m);
                int after_nine = pad;
                arm_both();
                answer a = search_record(UINT32_MAX, bytes, given, contents(&gb),
                                         k + (size_t)bad_out, contents(&gw), n);
                uint32_t e = bad_code ? 1 : torn ? 8 : after_nine ? 9 : bad_out ? 3 : 0;
                if (e) refused(a, e, 0);
                cinorbis_part p;
                memset(&p, 0xA5, sizeof p);
                uint32_t part_refusal = cinorbis_record(bytes, given, &p);
                e = bad_code ? 1 : torn ? 8 : after_nine ? 9 : 0;
                CHECK(part_refusal == e && p.place == 0, "part: %u, not %u", part_refusal, e);
                CHECK(e ? p.length == 0 && p.r == 0 && p.m == 0
                        : p.length == size - 1 && p.r == (uint64_t)r && p.m == (uint64_t)m,
                      "part of %" PRIu64, p.length);
                if (!e && !bad_out) {
                    int16_t l[8];
                    uint8_t bits[256], word[256];
                    for (size_t j = 0; j < n; j++)
                        l[j] = (int16_t)(field[j] == -2048 ? -2047 : field[j]);
                    answer b =
                        search_within((uint32_t)r, (uint32_t)m, UINT32_MAX, l, n, bits, k, word, n);
                    CHECK(a.refusal == b.refusal && a.penalty == b.penalty && a.gap == b.gap &&
                              a.visits == b.visits && a.place == b.place,
                          "as the search");
                    if (!b.refusal)
                        CHECK(memcmp(contents(&gb), bits, k) == 0 &&
                                  memcmp(contents(&gw), word, n) == 0 && only_first(&gb, k) &&
                                  only_first(&gw, n),
                              "as the search");
                    else
                        CHECK(untouched(&gb) && untouched(&gw), "wrote");
                }
            }
    end();
    begin("records: no byte at all is 8, a lone 90 or 12 is 1, a lone 21 is 8, 00 80 01 is 9");
    const uint8_t none[1] = {0}, m9[1] = {0x90}, r2[1] = {0x12}, lone[1] = {0x21},
                  padded[3] = {0x00, 0x80, 0x01};
    arm_both();
    refused(search_record(9, none, 0, contents(&gb), 1, contents(&gw), 1), 8, 0);
    refused(search_record(9, m9, 1, contents(&gb), 1, contents(&gw), 1), 1, 0);
    refused(search_record(9, r2, 1, contents(&gb), 1, contents(&gw), 1), 1, 0);
    refused(search_record(9, lone, 1, contents(&gb), 1, contents(&gw), 1), 8, 0);
    refused(search_record(9, padded, 3, contents(&gb), 9, contents(&gw), 9), 9, 0);
    end();
}

int main(void) {
    codes_and_lengths();
    bytes_of_bits();
    search_refusals();
    records();
    return finish();
}
