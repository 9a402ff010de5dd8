/* Writing records: every mixture of faults in the order 1, 2, 4, 3; the bytes by their bits;
 * nothing outside the record; what was written is read back, and what is read is written again to
 * the same bytes. */
#include "call.h"
#include "check.h"

static guarded buffer;

static cinorbis_size length_of(uint32_t m) { return 1 + (12 * ((cinorbis_size)1 << m) + 7) / 8; }

/* the record bit by bit, most significant first */
static void expected_bytes(uint32_t r, uint32_t m, const int16_t *l, uint8_t *out) {
    cinorbis_size n = (cinorbis_size)1 << m, at = 0;
    memset(out, 0, length_of(m));
    for (int i = 3; i >= 0; i--) out[at / 8] |= (uint8_t)((m >> i & 1) << (7 - at % 8)), at++;
    for (int i = 3; i >= 0; i--) out[at / 8] |= (uint8_t)((r >> i & 1) << (7 - at % 8)), at++;
    for (cinorbis_size j = 0; j < n; j++)
        for (int i = 11; i >= 0; i--)
            out[at / 8] |= (uint8_t)(((l[j] + 4096) >> i & 1) << (7 - at % 8)), at++;
}

static uint32_t write_at(uint32_t r, uint32_t m, cinorbis_size place, const int16_t *l,
                         cinorbis_size n, cinorbis_size room, cinorbis_written *w) {
    memset(w, 0xA5, sizeof *w);
    return cinorbis_write_record(r, m, place, l, n, contents(&buffer), room, w);
}

static void written(void) {
    begin("every code: the record's bytes, all others as they were; read back; written again");
    for (uint32_t m = 0; m <= 8; m++)
        for (uint32_t r = 0; r <= m; r++)
            for (int t = 0; t < 12; t++) {
                cinorbis_size n = (cinorbis_size)1 << m, k = length_of(m),
                              place = (cinorbis_size)random_below(500),
                              after = (cinorbis_size)random_below(3);
                int16_t l[256], back[256];
                uint8_t record[400];
                cinorbis_written w;
                cinorbis_part p;
                cinorbis_numbers a;
                for (cinorbis_size j = 0; j < n; j++)
                    l[j] = (int16_t)(t == 0   ? 2047
                                     : t == 1 ? -2047
                                     : t == 2 ? 0
                                     : t == 3 ? -1
                                              : random_between(-2047, 2047));
                expected_bytes(r, m, l, record);
                arm(&buffer);
                uint32_t refusal = write_at(r, m, place, l, n, place + k + after, &w);
                CHECK(refusal == 0 && w.next == place + k && w.place == 0,
                      "%u: next %" PRIu64 ", place %" PRIu64, refusal, w.next, w.place);
                uint8_t *b = contents(&buffer);
                CHECK(memcmp(b + place, record, k) == 0, "RM(%u,%u): other bytes", r, m);
                memcpy(b + place, buffer.before + GUARD + place, k);
                CHECK(untouched(&buffer), "RM(%u,%u): a byte outside the record", r, m);
                CHECK(cinorbis_record(record, k, &p) == 0 && p.r == r && p.m == m &&
                          p.length == k - 1,
                      "not read as RM(%u,%u)", r, m);
                CHECK(cinorbis_unpack(record + 1, k - 1, back, n, &a) == 0 &&
                          memcmp(back, l, n * sizeof *l) == 0,
                      "other readings");
                CHECK(cinorbis_record_length(record[0]) == k, "length");
                arm(&buffer);
                memcpy(b + place, record, k);
                memcpy(buffer.before, buffer.all, sizeof buffer.all);
                CHECK(write_at(r, m, place, back, n, place + k, &w) == 0 && untouched(&buffer),
                      "written again to other bytes");
            }
    end();
}

static void refused(void) {
    static const uint32_t bad_r[] = {1, 9, 0, UINT32_MAX, 5}, bad_m[] = {0, 8, 9, UINT32_MAX, 4};
    static const cinorbis_size far_off[] = {UINT64_MAX, UINT64_MAX - 1, UINT64_MAX - 384,
                                            UINT64_MAX / 2};
    begin("refusals: 1, 2, 4 with its place, then 3; nothing is written");
    for (uint32_t m = 0; m <= 4; m++)
        for (uint32_t r = 0; r <= m; r++)
            for (int code = 0; code < 6; code++)
                for (int in = 0; in < 4; in++)
                    for (int entry = 0; entry < 4; entry++)
                        for (int space = 0; space < 9; space++) {
                            static const int off[] = {0, -1, 1, 4};
                            uint32_t R = code ? bad_r[code - 1] : r, M = code ? bad_m[code - 1] : m;
                            cinorbis_size n = (cinorbis_size)1 << m,
                                          ni = n + (cinorbis_size)off[in], k = length_of(m);
                            int16_t l[32];
                            for (int j = 0; j < 32; j++)
                                l[j] = (int16_t)random_between(-2047, 2047);
                            cinorbis_size at = (cinorbis_size)random_below((int)n);
                            if (entry) {
                                l[at] = (int16_t)(entry == 1        ? 2048
                                                  : entry == 2      ? -2048
                                                  : random_below(2) ? INT16_MIN
                                                                    : INT16_MAX);
                                l[31] = 2048;
                                if (at < n - 1) l[n - 1] = -2048;
                            }
                            /* 0: just enough; then one byte too few, the place at the end, beyond
                             * it, no buffer at all, and places that would wrap */
                            cinorbis_size place = (cinorbis_size)random_below(9), room = place + k;
                            if (space == 1) room--;
                            if (space == 2) room = place;
                            if (space == 3)
                                room = place, place += (cinorbis_size)random_between(1, 500);
                            if (space == 4) room = 0;
                            if (space > 4) place = far_off[space - 5], room = 300;
                            uint32_t e = code ? 1 : off[in] ? 2 : entry ? 4 : space ? 3 : 0;
                            cinorbis_written w;
                            arm(&buffer);
                            uint32_t refusal = write_at(R, M, place, l, ni, room, &w);
                            CHECK(refusal == e, "%u, not %u (space %d)", refusal, e, space);
                            if (e) {
                                CHECK(w.next == 0 && w.place == (e == 4 ? at : 0),
                                      "next %" PRIu64 ", place %" PRIu64, w.next, w.place);
                                CHECK(untouched(&buffer), "wrote, and then refused %u", e);
                            }
                        }
    end();
}

static void rails(void) {
    begin("a record with the bottom rail: read as -2,047, written again to other bytes that are "
          "read the same");
    for (uint32_t m = 0; m <= 8; m++)
        for (int t = 0; t < 20; t++) {
            cinorbis_size n = (cinorbis_size)1 << m, k = length_of(m),
                          at = (cinorbis_size)random_below((int)n);
            int16_t l[256], back[256], again[256];
            uint8_t record[400];
            cinorbis_written w;
            cinorbis_part p;
            cinorbis_numbers a;
            for (cinorbis_size j = 0; j < n; j++) l[j] = (int16_t)random_between(-2047, 2047);
            l[at] = -2048;
            expected_bytes(m / 2, m, l, record);
            CHECK(cinorbis_record(record, k, &p) == 0 && p.place == 0 && p.length == k - 1,
                  "refused");
            CHECK(cinorbis_unpack(record + 1, k - 1, back, n, &a) == 0, "not unpacked");
            l[at] = -2047;
            CHECK(memcmp(back, l, n * sizeof *l) == 0, "other readings");
            arm(&buffer);
            CHECK(write_at(m / 2, m, 0, back, n, k, &w) == 0 &&
                      memcmp(contents(&buffer), record, k) != 0,
                  "the rail was written");
            CHECK(cinorbis_unpack(contents(&buffer) + 1, k - 1, again, n, &a) == 0 &&
                      memcmp(again, back, n * sizeof *back) == 0,
                  "not read the same");
        }
    end();
}

static void capture(void) {
    begin("records one after another, and the search of each");
    cinorbis_size next = 0;
    arm(&buffer);
    for (int t = 0; t < 12; t++) {
        int16_t l[4];
        cinorbis_written w;
        for (int j = 0; j < 4; j++) l[j] = (int16_t)random_between(-2047, 2047);
        CHECK(write_at(1, 2, next, l, 4, 1024, &w) == 0 && w.next == next + 7, "next %" PRIu64,
              w.next);
        uint8_t bits[3], word[4], bits2[3], word2[4];
        answer a = search_record(100, contents(&buffer) + next, 1024 - next, bits, 3, word, 4),
               b = search_within(1, 2, 100, l, 4, bits2, 3, word2, 4);
        CHECK(a.refusal == b.refusal && a.penalty == b.penalty && a.gap == b.gap &&
                  a.visits == b.visits,
              "another answer");
        if (!a.refusal)
            CHECK(memcmp(bits, bits2, 3) == 0 && memcmp(word, word2, 4) == 0, "another word");
        next = w.next;
    }
    end();
}

int main(void) {
    written();
    refused();
    rails();
    capture();
    return finish();
}
