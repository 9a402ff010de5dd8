/* Lengths for lent memory, and unpacking: every code, every first byte, every length of a part;
 * buffers with guards. */
#include "call.h"
#include "check.h"
#include "reference.h"

static guarded readings;

static void codes(void) {
    static const uint32_t large[] = {9,         16, 31, 32, 64, 255, 256, 65536, UINT32_MAX - 1,
                                     UINT32_MAX};
    begin("the archive has the header's version");
    CHECK(cinorbis_version() == CINORBIS_VERSION, "%u", cinorbis_version());
    end();
    begin("n and k of every code, 0 where it is refused");
    for (uint32_t m = 0; m < 40; m++) {
        CHECK(cinorbis_length(m) == (m <= 8 ? (cinorbis_size)1 << m : 0), "m %u: %" PRI_SIZE, m,
              cinorbis_length(m));
        for (uint32_t r = 0; r < 40; r++) {
            cinorbis_size k = m <= 8 && r <= m ? (cinorbis_size)ref_k((int)r, (int)m) : 0;
            CHECK(cinorbis_dimension(r, m) == k, "r %u, m %u: %" PRI_SIZE, r, m,
                  cinorbis_dimension(r, m));
        }
    }
    for (cinorbis_size i = 0; i < sizeof large / sizeof *large; i++) {
        CHECK(cinorbis_length(large[i]) == 0, "m %u", large[i]);
        CHECK(cinorbis_dimension(0, large[i]) == 0 && cinorbis_dimension(large[i], 3) == 0 &&
                  cinorbis_dimension(large[i], large[i]) == 0,
              "%u", large[i]);
    }
    end();
}

static void first_bytes(void) {
    begin("a record's length by its first byte");
    for (uint32_t first = 0; first < 1024; first++) {
        uint32_t m = first / 16, r = first % 16;
        cinorbis_size bits = 8 + 12 * ((cinorbis_size)1 << (m <= 8 ? m : 0));
        cinorbis_size expected = first < 256 && m <= 8 && r <= m ? (bits + 7) / 8 : 0;
        CHECK(cinorbis_record_length(first) == expected, "%u: %" PRI_SIZE ", not %" PRI_SIZE, first,
              cinorbis_record_length(first), expected);
    }
    CHECK(cinorbis_record_length(UINT32_MAX) == 0 && cinorbis_record_length(0x80000021u) == 0,
          "no byte");
    end();
}

/* bit i of bytes, most significant first */
static int bit_at(const uint8_t *bytes, cinorbis_size i) { return bytes[i / 8] >> (7 - i % 8) & 1; }

static int field_at(const uint8_t *part, cinorbis_size j) {
    int value = 0;
    for (cinorbis_size i = 12 * j; i < 12 * j + 12; i++) value = 2 * value + bit_at(part, i);
    return value == 2048  ? -2047
           : value < 2048 ? value
                          : value - 4096; /* the bottom rail is read as -2,047 */
}

/* how many readings a part of so many bytes holds, 0 where no record has such a part */
static cinorbis_size readings_in(cinorbis_size bytes) {
    for (cinorbis_size n = 1; n <= 256; n *= 2)
        if ((12 * n + 7) / 8 == bytes) return n;
    return 0;
}

static void unpacked(void) {
    uint8_t part[400];
    begin("unpacking: 2 for a length that no record has, then 3 for the buffer, else the readings");
    for (cinorbis_size bytes = 0; bytes <= 400; bytes++)
        for (int off = -1; off <= 2; off++) {
            cinorbis_size n = readings_in(bytes), room = n + (cinorbis_size)off;
            if (off < 0 && n == 0) room = 1;
            for (cinorbis_size i = 0; i < bytes; i++) part[i] = (uint8_t)random64();
            /* every other part begins with the bottom rail or a neighbour of it */
            if (bytes >= 2 && random_below(2))
                part[0] = 0x80, part[1] = (uint8_t)(16 * random_below(3) + part[1] % 16);
            arm(&readings);
            int16_t *out = (int16_t *)(void *)contents(&readings);
            cinorbis_numbers a;
            memset(&a, 0xA5, sizeof a);
            uint32_t refusal = cinorbis_unpack(part, bytes, out, room, &a);
            uint32_t expected = n == 0 ? 2 : room != n ? 3 : 0;
            CHECK(refusal == expected, "%" PRI_SIZE " bytes, room for %" PRI_SIZE ": %u, not %u",
                  bytes, room, refusal, expected);
            CHECK(a.penalty == 0 && a.gap == 0 && a.visits == 0 && a.place == 0, "numbers");
            if (expected) {
                CHECK(untouched(&readings), "wrote");
                continue;
            }
            CHECK(only_first(&readings, 2 * n), "wrote past the readings");
            for (cinorbis_size j = 0; j < n; j++)
                CHECK(out[j] == field_at(part, j),
                      "reading %" PRI_SIZE " of %" PRI_SIZE ": %d, not %d", j, n, out[j],
                      field_at(part, j));
        }
    end();
}

int main(void) {
    codes();
    first_bytes();
    unpacked();
    return finish();
}
