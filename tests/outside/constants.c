/* Every macro and every refusal's name in the header against what the library does: each limit
 * reached and passed, each refusal provoked. */
#include "call.h"
#include "check.h"

static uint8_t bits[CINORBIS_LARGEST_N + 1], word[CINORBIS_LARGEST_N + 1],
    bytes[2 * CINORBIS_LARGEST_RECORD];
static int16_t readings[2 * CINORBIS_LARGEST_N];

static void limits_of_the_code(void) {
    begin("largest m, largest n");
    CHECK(encode(0, CINORBIS_LARGEST_M, bits, 1, word, CINORBIS_LARGEST_N).refusal == CINORBIS_DONE,
          "the largest m is refused");
    CHECK(encode(0, CINORBIS_LARGEST_M, bits, 1, word, CINORBIS_LARGEST_N - 1).refusal ==
              CINORBIS_OUTPUT_LENGTH,
          "a word shorter than the largest n");
    CHECK(encode(0, CINORBIS_LARGEST_M + 1, bits, 1, word, CINORBIS_LARGEST_N).refusal ==
              CINORBIS_PARAMETERS,
          "a larger m is taken");
    CHECK(encode(CINORBIS_LARGEST_M, CINORBIS_LARGEST_M, bits, CINORBIS_LARGEST_N, word,
                 CINORBIS_LARGEST_N)
                  .refusal == CINORBIS_DONE,
          "as many information bits as the largest n");
    end();
}

/* all that 16 bits can hold: the header's largest is the largest of them, and only what is below
 * its negative is refused */
static void largest_reading(void) {
    begin("largest reading: every 16-bit number");
    for (int x = INT16_MIN; x <= INT16_MAX; x++) {
        int16_t l = (int16_t)x;
        int size = x < 0 ? -x : x;
        answer s = search(0, 0, &l, 1, bits, 1, word, 1), q = quick(0, 0, &l, 1, bits, 1, word, 1);
        if (size > CINORBIS_LARGEST_READING)
            CHECK(s.refusal == CINORBIS_ENTRY && q.refusal == CINORBIS_ENTRY, "%d: %u, %u", x,
                  s.refusal, q.refusal);
        else
            CHECK(s.refusal == (x ? CINORBIS_DONE : CINORBIS_TIED) && s.gap == (uint32_t)size &&
                      q.refusal == CINORBIS_DONE && q.penalty == 0,
                  "%d: %u, %u", x, s.refusal, q.refusal);
    }
    end();
}

/* every call on plain readings refuses the same ones, at their place; the writer of records those
 * that 12 bits do not hold */
static void readings_of_every_call(void) {
    static const int values[] = {INT16_MIN, -32767, -32766, -2049, -2048, -2047, -1,
                                 1,         2047,   2048,   2049,  32766, 32767};
    static const uint8_t row[5] = {0}, table[25] = {[0] = 1, [6] = 1, [12] = 1, [18] = 1, [24] = 1},
                         none[32];
    cinorbis_numbers n[8];
    cinorbis_telegram telegram;
    cinorbis_written written;
    begin("the same readings in every call");
    for (size_t v = 0; v < sizeof values / sizeof values[0]; v++)
        for (size_t at = 0; at < 32; at++) {
            int16_t l[32], out[32];
            uint8_t runner_up[256];
            int size = values[v] < 0 ? -values[v] : values[v];
            for (int j = 0; j < 32; j++)
                l[j] = (int16_t)random_between(-CINORBIS_LARGEST_RECORD_READING,
                                               CINORBIS_LARGEST_RECORD_READING);
            l[at] = (int16_t)values[v];
            uint32_t given[8] = {
                cinorbis_search(1, 5, l, 32, bits, 6, word, 32, runner_up, &n[0]),
                cinorbis_quick(1, 5, l, 32, bits, 6, word, 32, &n[1]),
                cinorbis_early(1, 5, l, 32, bits, 6, word, 32, &n[2]),
                cinorbis_first_order(1, 5, l, 32, bits, 6, word, 32, &n[3]),
                cinorbis_reorder(5, table, 25, row, 5, l, 32, out, 32, &n[4]),
                cinorbis_telegram_read(l, 32, &telegram, &n[5]),
                cinorbis_quick_shortened(1, 5, none, 32, l, 32, bits, 6, word, 32, &n[6]),
                cinorbis_search_shortened(1, 5, none, 32, l, 32, bits, 6, word, 32, runner_up,
                                          &n[7]),
            };
            for (int c = 0; c < 8; c++)
                CHECK(size > CINORBIS_LARGEST_READING
                          ? given[c] == CINORBIS_ENTRY && n[c].place == at
                          : given[c] != CINORBIS_ENTRY,
                      "call %d, %d at %zu: %u", c, values[v], at, given[c]);
            if (given[4] == CINORBIS_DONE)
                CHECK(memcmp(l, out, sizeof l) == 0, "%d is reordered to another number",
                      values[v]);
            uint32_t w = cinorbis_write_record(1, 5, 0, l, 32, bytes, sizeof bytes, &written);
            CHECK(size > CINORBIS_LARGEST_RECORD_READING
                      ? w == CINORBIS_ENTRY && written.place == at
                      : w == CINORBIS_DONE,
                  "written, %d: %u", values[v], w);
        }
    end();
}

/* Readings of equal size and no pattern make the walk long; the first such row that runs out under
 * the default is used. */
static void default_allowance(void) {
    answer a = {0, 0, 0, 0, 0};
    begin("default allowance");
    for (int t = 0; t < 20 && a.refusal != CINORBIS_OUT_OF_VISITS; t++) {
        for (int j = 0; j < 256; j++) readings[j] = random_below(2) ? 1 : -1;
        a = search(3, 8, readings, 256, bits, 93, word, 256);
    }
    CHECK(a.refusal == CINORBIS_OUT_OF_VISITS && a.visits == CINORBIS_DEFAULT_ALLOWANCE,
          "%u, visits %u", a.refusal, a.visits);
    a = search_within(3, 8, CINORBIS_DEFAULT_ALLOWANCE + 1, readings, 256, bits, 93, word, 256);
    CHECK(a.refusal != CINORBIS_OUT_OF_VISITS || a.visits == CINORBIS_DEFAULT_ALLOWANCE + 1,
          "the allowance is not the one given");
    end();
}

static void largest_record(void) {
    cinorbis_part part;
    begin("largest record");
    memset(bytes, 0, sizeof bytes);
    bytes[0] = CINORBIS_LARGEST_M << 4;
    CHECK(cinorbis_record(bytes, sizeof bytes, &part) == CINORBIS_DONE &&
              part.length + 1 == CINORBIS_LARGEST_RECORD,
          "the longest record has %" PRIu64 " bytes", part.length + 1);
    CHECK(cinorbis_record(bytes, CINORBIS_LARGEST_RECORD, &part) == CINORBIS_DONE,
          "a record of just so many bytes");
    CHECK(cinorbis_record(bytes, CINORBIS_LARGEST_RECORD - 1, &part) == CINORBIS_TORN,
          "one byte less");
    end();
}

/* the number that a call gives, and the name that the header has for it */
static void named(const char *what, uint32_t given, uint32_t number, enum cinorbis_refusal name) {
    begin("refusal %u: %s", number, what);
    CHECK(given == number && (uint32_t)name == number, "given %u, named %u", given, (unsigned)name);
    end();
}

static void refusals_by_name(void) {
    static const int16_t plain[4] = {5, -2, 3, 1};
    static const uint8_t no_word[4] = {1, 0, 0, 0};
    static const uint8_t torn[1] = {0x21}, pad[3] = {0x00, 0x00, 0x01};
    int16_t bad[4] = {0, 0, 0, INT16_MIN}, tied[1] = {0};
    cinorbis_part part;
    named("done", search(1, 2, plain, 4, bits, 3, word, 4).refusal, 0, CINORBIS_DONE);
    named("r above m", search(3, 2, plain, 4, bits, 3, word, 4).refusal, 1, CINORBIS_PARAMETERS);
    named("readings too short", search(1, 2, plain, 3, bits, 3, word, 4).refusal, 2,
          CINORBIS_INPUT_LENGTH);
    named("bits too long", search(1, 2, plain, 4, bits, 4, word, 4).refusal, 3,
          CINORBIS_OUTPUT_LENGTH);
    named("a reading beyond every limit", search(1, 2, bad, 4, bits, 3, word, 4).refusal, 4,
          CINORBIS_ENTRY);
    named("no word", inverse(1, 2, no_word, 4, bits, 3).refusal, 5, CINORBIS_NOT_A_WORD);
    named("nothing allowed", search_within(1, 2, 0, plain, 4, bits, 3, word, 4).refusal, 6,
          CINORBIS_OUT_OF_VISITS);
    named("a tie", search(0, 0, tied, 1, bits, 1, word, 1).refusal, 7, CINORBIS_TIED);
    named("a torn record", cinorbis_record(torn, 1, &part), 8, CINORBIS_TORN);
    named("a pad bit", cinorbis_record(pad, 3, &part), 9, CINORBIS_PAD);
    cinorbis_entry entry;
    cinorbis_size no_table[1] = {0};
    named("no entry", cinorbis_index_find(0, pad, 3, no_table, 0, &entry), 10, CINORBIS_NO_ENTRY);
    cinorbis_telegram telegram;
    cinorbis_numbers n;
    static const uint8_t singular[1] = {0}, row[1] = {0};
    named("a map that nothing undoes",
          cinorbis_undo_map(1, singular, 1, row, 1, bits, 1, word, 1, &n), 11, CINORBIS_MAP);
    named("a frozen index named", cinorbis_encode_shortened(1, 2, no_word, 4, bits, 3, word, 4, &n),
          12, CINORBIS_NAMED);
    for (int j = 0; j < 32; j++) readings[j] = -1;
    named("a telegram turned over", cinorbis_telegram_read(readings, 32, &telegram, &n), 13,
          CINORBIS_MARKER);
    named("a large tilt", cinorbis_telegram_write(0, 0, 1501, word, 32, &n), 14, CINORBIS_TILT);
    named("a direction and no tilt", cinorbis_telegram_write(0, 1, 0, word, 32, &n), 15,
          CINORBIS_ZERO_TILT);
    named("a large cylinder", cinorbis_telegram_write(8, 0, 1, word, 32, &n), 16, CINORBIS_FIELD);
}

/* every refusal has a text of its own, and no other number has */
static void texts(void) {
    begin("texts");
    for (uint32_t a = 0; a < 40; a++)
        for (uint32_t b = 0; b < a; b++) {
            int same = strcmp(cinorbis_refusal_text(a), cinorbis_refusal_text(b)) == 0;
            CHECK(!same || strcmp(cinorbis_refusal_text(b), cinorbis_refusal_text(UINT32_MAX)) == 0,
                  "%u and %u: %s", a, b, cinorbis_refusal_text(a));
        }
    CHECK(strcmp(cinorbis_refusal_text(CINORBIS_PAD), cinorbis_refusal_text(UINT32_MAX)) != 0,
          "a refusal without a text");
    end();
}

int main(void) {
    texts();
    limits_of_the_code();
    largest_reading();
    readings_of_every_call();
    default_allowance();
    largest_record();
    refusals_by_name();
    return finish();
}
