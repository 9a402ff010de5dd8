/* Lengths, places and entries whose low 32 bits are right and whose high ones are not 0: all are
 * refused, so nothing cuts a length to the width of an address. On 32-bit controllers this is what
 * a header with 32-bit lengths would get wrong. */
#include "../../include/cinorbis.h"
#include "check.h"

static int16_t readings[32], moved[32];
static float floats[32];
static uint8_t bits[32], word[32], named[32], second[256], table[25], row[5], out[32], record[400];
static cinorbis_size entries[1];
static cinorbis_numbers numbers;
static cinorbis_telegram telegram;
static uint64_t position;
static cinorbis_written written;
static cinorbis_index made;
static cinorbis_entry entry;

/* the length that is given a high half, and that half */
static int at;
static cinorbis_size high;

/* the right lengths of RM(2,5), each with the high half where its number is `at` */
#define N (32 + (at == 0 ? high : 0))
#define K (16 + (at == 1 ? high : 0))
#define W (32 + (at == 2 ? high : 0))
#define M (32 + (at == 3 ? high : 0))

/* is CALL, N, K, W, M: the refusal that is expected where that length has a high half */
#define is(call, n, k, w, m) expect(#call, call, high == 0 ? 0 : (const uint32_t[]){n, k, w, m}[at])

static void expect(const char *call, uint32_t refusal, uint32_t expected) {
    begin("%.40s, length %d, high half %08x", call, at, (unsigned)(high >> 32));
    CHECK(refusal == expected, "refusal %u, not %u", (unsigned)refusal, (unsigned)expected);
    end();
}

static void searches(void) {
    is(cinorbis_search(2, 5, readings, N, bits, K, word, W, second, &numbers), 2, 3, 3, 0);
    is(cinorbis_search_within(2, 5, 9999, readings, N, bits, K, word, W, second, &numbers), 2, 3, 3,
       0);
    is(cinorbis_search_float(2, 5, floats, N, bits, K, word, W, second, &numbers), 2, 3, 3, 0);
    is(cinorbis_search_float_within(2, 5, 9999, floats, N, bits, K, word, W, second, &numbers), 2,
       3, 3, 0);
    is(cinorbis_early(2, 5, readings, N, bits, K, word, W, &numbers), 2, 3, 3, 0);
    is(cinorbis_early_within(2, 5, 9999, readings, N, bits, K, word, W, &numbers), 2, 3, 3, 0);
    is(cinorbis_quick(2, 5, readings, N, bits, K, word, W, &numbers), 2, 3, 3, 0);
    is(cinorbis_first_order(1, 5, readings, N, bits, K - 10, word, W, &numbers), 2, 3, 3, 0);
    is(cinorbis_encode(2, 5, bits, K, word, W, &numbers), 0, 2, 3, 0);
    is(cinorbis_inverse(2, 5, word, W, bits, K, &numbers), 0, 3, 2, 0);
    is(cinorbis_telegram_read(readings, N, &telegram, &numbers), 2, 0, 0, 0);
    is(cinorbis_telegram_read_within(9999, readings, N, &telegram, &numbers), 2, 0, 0, 0);
    is(cinorbis_telegram_write(1, 1, 7, out, W, &numbers), 0, 0, 3, 0);
    is(cinorbis_telegram_of_bits(bits, K, &telegram, &numbers), 0, 2, 0, 0);
    is(cinorbis_rod_read(5, readings, N, &position, &numbers), 2, 0, 0, 0);
    is(cinorbis_rod_write(5, 17, out, W, &numbers), 0, 0, 3, 0);
}

static void shortened(void) {
    is(cinorbis_search_shortened(2, 5, named, M, readings, N, bits, K, word, W, second, &numbers),
       2, 3, 3, 12);
    is(cinorbis_search_within_shortened(2, 5, 9999, named, M, readings, N, bits, K, word, W, second,
                                        &numbers),
       2, 3, 3, 12);
    is(cinorbis_quick_shortened(2, 5, named, M, readings, N, bits, K, word, W, &numbers), 2, 3, 3,
       12);
    is(cinorbis_encode_shortened(2, 5, named, M, bits, K, word, W, &numbers), 0, 2, 3, 12);
    is(cinorbis_inverse_shortened(2, 5, named, M, word, W, bits, K, &numbers), 0, 3, 2, 12);
}

/* a table has 25 bytes here, a row 5 */
static void maps(void) {
    is(cinorbis_reorder(5, table, K + 9, row, M - 27, readings, N, moved, W, &numbers), 2, 2, 3, 2);
    is(cinorbis_reorder_word(5, table, K + 9, row, M - 27, word, N, out, W, &numbers), 2, 2, 3, 2);
    is(cinorbis_undo_map(5, table, K + 9, row, M - 27, out, N - 7, second, W - 27, &numbers), 3, 2,
       3, 2);
    is(cinorbis_product_map(5, table, K + 9, row, M - 27, table, 25, row, 5, out, N - 7, second,
                            W - 27, &numbers),
       3, 2, 3, 2);
    is(cinorbis_product_map(5, table, 25, row, 5, table, K + 9, row, M - 27, out, N - 7, second,
                            W - 27, &numbers),
       3, 2, 3, 2);
}

/* a record of RM(2,5) has 49 bytes; K, W and M stand for places and entries here */
static void records(void) {
    cinorbis_size place = K - 16, start = W - 32, more = M - 32;
    is(cinorbis_write_record(2, 5, place, readings, N, record, 49, &written), 2, 3, 0, 0);
    is(cinorbis_unpack(record + 1, N + 16, moved, W, &numbers), 2, 0, 3, 0);
    made.records = 0, made.used = place;
    is(cinorbis_index_append(2, 5, readings, N, record, 49, entries, 1, &made, &written), 2, 3, 0,
       0);
    entries[0] = start;
    is(cinorbis_index_find(place, record, 49, entries, 1, &entry), 0, 10, 8, 0);
    entries[0] = 0;
    is(cinorbis_index_find(16 + more, record, 49, entries, 1, &entry) == 10 ? 0 : 99, 0, 0, 0, 0);
}

int main(void) {
    static const cinorbis_size highs[] = {0, (cinorbis_size)1 << 32, (cinorbis_size)1 << 63,
                                          (cinorbis_size)0xffffffff << 32};
    for (int j = 0; j < 32; j++) readings[j] = 100, floats[j] = 100;
    for (int p = 0; p < 5; p++) table[6 * p] = 1;
    for (int h = 0; h < 4; h++)
        for (at = 0; at < 4; at++) {
            high = highs[h];
            searches();
            shortened();
            maps();
            records();
        }
    return finish();
}
