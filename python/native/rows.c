/* The calls of cinorbis.h, row after row: what a loop in Python would do, without the interpreter
 * between two words. Nothing else is decided here: each row has the refusal, numbers and outputs
 * that its call gives. Rows are dense. Each loop ends before the next row where the byte at `stop`
 * is no longer 0: another thread sets it when the caller is interrupted. Not proved; each function
 * is tested against single calls. */
#include "cinorbis.h"

/* in the order of _words.py */
enum { QUICK, SEARCH, EARLY, FIRST_ORDER, QUICK_SHORTENED, SEARCH_SHORTENED, SEARCH_FLOAT };

/* copies the k bits of a runner-up that a caller has room for */
static void keep(uint8_t *out, const uint8_t next[256], size_t k) {
    for (size_t i = 0; i < k; i++) out[i] = next[i];
}

/* count rows of `width` readings. The named indices are used by the calls on shortened sets alone;
 * runner_up, count rows of k, by the searches. k and n are the widths of bits and word. */
void cinorbis_rows(uint32_t what, uint32_t r, uint32_t m, uint32_t allowed, const uint8_t *named,
                   size_t named_length, const void *readings, size_t width, uint8_t *bits, size_t k,
                   uint8_t *word, size_t n, uint8_t *runner_up, cinorbis_numbers *numbers,
                   uint32_t *refusals, size_t count, const volatile uint8_t *stop) {
    uint8_t next[256];
    for (size_t i = 0; i < count && !*stop; i++) {
        const int16_t *in = (const int16_t *)readings + i * width;
        const float *floats = (const float *)readings + i * width;
        uint8_t *b = bits + i * k, *w = word + i * n;
        cinorbis_numbers *a = numbers + i;
        uint32_t refusal;
        switch (what) {
        case QUICK: refusal = cinorbis_quick(r, m, in, width, b, k, w, n, a); break;
        case EARLY: refusal = cinorbis_early_within(r, m, allowed, in, width, b, k, w, n, a); break;
        case FIRST_ORDER: refusal = cinorbis_first_order(r, m, in, width, b, k, w, n, a); break;
        case QUICK_SHORTENED:
            refusal = cinorbis_quick_shortened(r, m, named, named_length, in, width, b, k, w, n, a);
            break;
        case SEARCH:
            refusal = cinorbis_search_within(r, m, allowed, in, width, b, k, w, n, next, a);
            keep(runner_up + i * k, next, k);
            break;
        case SEARCH_SHORTENED:
            refusal = cinorbis_search_within_shortened(r, m, allowed, named, named_length, in,
                                                       width, b, k, w, n, next, a);
            keep(runner_up + i * k, next, k);
            break;
        default:
            refusal =
                cinorbis_search_float_within(r, m, allowed, floats, width, b, k, w, n, next, a);
            keep(runner_up + i * k, next, k);
        }
        refusals[i] = refusal;
    }
}

/* The encoder (back 0) and the inverse (back 1); a row that names no index is the whole code. */
void cinorbis_rows_coded(uint32_t back, uint32_t r, uint32_t m, const uint8_t *named,
                         size_t named_length, const uint8_t *in, size_t width, uint8_t *out,
                         size_t out_width, cinorbis_numbers *numbers, uint32_t *refusals,
                         size_t count, const volatile uint8_t *stop) {
    for (size_t i = 0; i < count && !*stop; i++, in += width, out += out_width)
        refusals[i] = back ? cinorbis_inverse_shortened(r, m, named, named_length, in, width, out,
                                                        out_width, numbers + i)
                           : cinorbis_encode_shortened(r, m, named, named_length, in, width, out,
                                                       out_width, numbers + i);
}

/* Telegrams, `width` readings a row. */
void cinorbis_rows_telegrams(uint32_t allowed, const int16_t *readings, size_t width,
                             cinorbis_telegram *telegrams, cinorbis_numbers *numbers,
                             uint32_t *refusals, size_t count, const volatile uint8_t *stop) {
    for (size_t i = 0; i < count && !*stop; i++)
        refusals[i] = cinorbis_telegram_read_within(allowed, readings + i * width, width,
                                                    telegrams + i, numbers + i);
}

/* Rod positions, `width` readings a row. */
void cinorbis_rows_rods(uint32_t m, const int16_t *readings, size_t width, uint64_t *positions,
                        cinorbis_numbers *numbers, uint32_t *refusals, size_t count,
                        const volatile uint8_t *stop) {
    for (size_t i = 0; i < count && !*stop; i++)
        refusals[i] = cinorbis_rod_read(m, readings + i * width, width, positions + i, numbers + i);
}

/* The searches of the records that some bytes begin with, at most `count`: where each starts, its
 * readings, and what its search gives, in rows of 256. Returns how many were done: it ends where
 * the bytes do, or at a record that is not whole or of no code. */
size_t cinorbis_rows_records(uint32_t allowed, const uint8_t *bytes, size_t length,
                             uint64_t *starts, int16_t *readings, uint8_t *bits, uint8_t *word,
                             uint8_t *runner_up, cinorbis_numbers *numbers, uint32_t *refusals,
                             size_t count, const volatile uint8_t *stop) {
    size_t i = 0, place = 0;
    for (; i < count && place < length && !*stop; i++) {
        uint32_t m = bytes[place] >> 4, r = bytes[place] & 15u;
        size_t step = (size_t)cinorbis_record_length(bytes[place]);
        size_t n = (size_t)cinorbis_length(m), k = (size_t)cinorbis_dimension(r, m);
        cinorbis_numbers none;
        if (step == 0 || step > length - place) break;
        starts[i] = place;
        refusals[i] =
            cinorbis_search_record(allowed, bytes + place, length - place, bits + 256 * i, k,
                                   word + 256 * i, n, runner_up + 256 * i, numbers + i);
        /* the part of a whole record has a length that the call takes, so it is never refused */
        (void)!cinorbis_unpack(bytes + place + 1, step - 1, readings + 256 * i, n, &none);
        place += step;
    }
    return i;
}
