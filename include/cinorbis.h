/* Cinorbis: a Reed-Muller decoder in which every function is proved. These are the C calls of
 * libcinorbis.a, which `tools/archive CPU` makes for 64-bit processors and 32-bit controllers.
 * docs/RULES.md gives the rules, in the sections (§) cited here; docs/PROMISES.md says, under the
 * name given as a call's promise, where it is stated and proved. Requires C99 or later.
 *
 * The code: RM(r,m) with 0 <= r <= m <= 8 has words of n = 2^m bits and k information bits,
 * k = (m choose 0) + (m choose 1) + .. + (m choose r). cinorbis_length and cinorbis_dimension give
 * n and k.
 *
 * Readings: one signed number per bit. A positive reading speaks for bit 0, a negative one for
 * bit 1; its size says how sure the modem is. Bits are stored one per byte, 0 or 1.
 *
 * Order: bits[0] goes to the lowest information index, that is, the lowest i below n with at
 * least m - r ones among its binary digits, and so on upwards; this gives the row u, which is 0 at
 * all other indices. word[j] is the sum modulo 2 of all u[i] where i has a one wherever j has one,
 * and readings[j] belongs to word[j]. RM(1,3): bits 1000 give the word 11110000, bits 0001 the word
 * 11111111 ([0] is leftmost). Two words differ in at least 2^(m-r) places.
 *
 * Arguments: the code r, m first; then an allowance if there is one; then the inputs; then the
 * outputs. Each buffer is a pointer followed by its length, the number of its entries. Lengths must
 * be exact: a buffer that is too long is refused like one that is too short. No pointer may be
 * null, even if the length is 0, and what a call writes must not overlap anything else that it is
 * given: these two are not checked. Everything else is: any numbers may be passed.
 *
 * Answers: a call returns 0 when it is done, or the number of its refusal; comments name refusals
 * without their prefix, CINORBIS_. A refused call leaves every buffer as it was, except a
 * runner-up. The struct of numbers and the runner-up are written by every call, with 0 in what the
 * call or its refusal does not give.
 *
 * The runner-up of a search: the k information bits of the second full path that the walk holds
 * when it ends, one per byte, in 256 bytes. Their word has the next best penalty, penalty + gap; if
 * several words share that penalty, the walk decides which one it is (§5). The bytes after the k-th
 * are 0, and under every refusal all 256 are.
 *
 * Every call returns. None keeps anything from one call to the next, so any number of threads may
 * call at once, each with its own buffers. No heap is used. The archive needs memcpy and memset,
 * and on 32-bit controllers the compiler's own library: for division; without an FPU for float
 * arithmetic; on a Cortex-M0+ for 64-bit shifts and products and for counting leading zeros. */
#ifndef CINORBIS_H
#define CINORBIS_H

#include <stddef.h>
#include <stdint.h>

/* Lengths, places and the entries of an index have 64 bits on every processor: size_t if addresses
 * have 64 bits, uint64_t on a 32-bit controller. */
#if SIZE_MAX == 0xffffffffffffffff
typedef size_t cinorbis_size;
#elif SIZE_MAX == 0xffffffff
typedef uint64_t cinorbis_size;
#else
#error "cinorbis: addresses have neither 64 nor 32 bits"
#endif
#if defined(__BYTE_ORDER__) && __BYTE_ORDER__ != __ORDER_LITTLE_ENDIAN__
#error "cinorbis: the processor has to keep the lowest byte first"
#endif
/* A uint64_t is aligned to 8 bytes, as in the calling conventions of x86-64, Arm and RISC-V. If it
 * is not (i386), the array below has a negative size and does not compile. */
struct cinorbis_padded {
    char first;
    uint64_t second;
};
typedef char
    cinorbis_needs_uint64_t_at_multiples_of_8[sizeof(struct cinorbis_padded) == 16 ? 1 : -1];

#ifdef __cplusplus
extern "C" {
#endif

/* Raised when a call is added or changed. An archive of another version may take other arguments:
 * compare once, at start-up, with cinorbis_version(). */
#define CINORBIS_VERSION 17

#define CINORBIS_LARGEST_M 8u
/* A reading is from -32767 to 32767: every int16_t except -32768 is a reading, and that one is
 * refused as ENTRY. */
#define CINORBIS_LARGEST_READING 32767
/* The largest reading of a packed record, whose fields have 12 bits: writing one beyond it is
 * refused as ENTRY. */
#define CINORBIS_LARGEST_RECORD_READING 2047
/* The visits allowed by calls that take no allowance. A larger allowance never changes an answer,
 * or a tie, that was given. */
#define CINORBIS_DEFAULT_ALLOWANCE 200000u
/* Room for any word, and for the information bits of any code. */
#define CINORBIS_LARGEST_N 256u
/* The bytes of the longest record: its first byte, and 256 readings of 12 bits. */
#define CINORBIS_LARGEST_RECORD 385u

/* A call's pointers must not be null, and its result has to be looked at. */
#if defined(__GNUC__)
#define CINORBIS_CALL __attribute__((nonnull, warn_unused_result))
#else
#define CINORBIS_CALL
#endif

/* Why a call refused (§6). If several apply, a call gives the one that it checks first: the order
 * is given at each call. */
enum cinorbis_refusal {
    CINORBIS_DONE = 0,
    /* m > 8 or r > m (maps of positions: only m > 8; first-order words: also r other than 1; rod
     * positions, whose r is 1: also m = 0) */
    CINORBIS_PARAMETERS = 1,
    /* an input's length is not n (information bits: k; a map's table: m * m, its row: m; a packed
     * part: that of a record) */
    CINORBIS_INPUT_LENGTH = 2,
    /* an output's length is not what it must be, or a buffer to write into has too little room */
    CINORBIS_OUTPUT_LENGTH = 3,
    /* an entry that is not a reading (beyond the largest, or a float that is no whole number), or
     * not a bit (above 1); place: the lowest such entry, counted from 0 */
    CINORBIS_ENTRY = 4,
    /* inverse: no information bits give the word; place: the lowest frozen index that is 1 */
    CINORBIS_NOT_A_WORD = 5,
    /* search: the walk needs more visits than allowed; visits: the allowance */
    CINORBIS_OUT_OF_VISITS = 6,
    /* search: two words share the least penalty; penalty and visits are given */
    CINORBIS_TIED = 7,
    /* record: the bytes end before its last one */
    CINORBIS_TORN = 8,
    /* record: a pad bit is 1 */
    CINORBIS_PAD = 9,
    /* index: the table has no entry for the record, or the capture ends right before it */
    CINORBIS_NO_ENTRY = 10,
    /* maps of positions: a byte of a table or row is above 1, or no map undoes the map */
    CINORBIS_MAP = 11,
    /* shortened sets: the row is not n bytes of 0 and 1, names a frozen index, or leaves no
     * information index */
    CINORBIS_NAMED = 12,
    /* telegram, rod position: the marker is set, as when the link is turned over */
    CINORBIS_MARKER = 13,
    /* telegram: the tilt is above 1500 */
    CINORBIS_TILT = 14,
    /* telegram: a tilt of zero with direction 1 */
    CINORBIS_ZERO_TILT = 15,
    /* telegram: a cylinder above 7 or a direction above 1; rod position: 2^m or more */
    CINORBIS_FIELD = 16
};

/* A refusal in words. */
static inline const char *cinorbis_refusal_text(uint32_t refusal) {
    switch (refusal) {
    case CINORBIS_DONE: return "done";
    case CINORBIS_PARAMETERS:
        return "no code that this call takes: m is above 8, or r above m, or not 1 for first-order "
               "words";
    case CINORBIS_INPUT_LENGTH: return "an input has the wrong length";
    case CINORBIS_OUTPUT_LENGTH: return "an output has the wrong length, or too little room";
    case CINORBIS_ENTRY: return "an entry is no reading (too large, or no whole number), or no bit";
    case CINORBIS_NOT_A_WORD: return "no information bits give this word";
    case CINORBIS_OUT_OF_VISITS: return "out of visits";
    case CINORBIS_TIED: return "tied: two words share the least penalty";
    case CINORBIS_TORN: return "the record ends before its last byte";
    case CINORBIS_PAD: return "a pad bit of the record is 1";
    case CINORBIS_NO_ENTRY:
        return "the index has no entry for this record, or the capture ends before it";
    case CINORBIS_MAP: return "no map of positions: a byte is above 1, or nothing undoes it";
    case CINORBIS_NAMED:
        return "the row of named indices has a wrong length or byte, names a frozen index, or "
               "leaves none";
    case CINORBIS_MARKER: return "the telegram's marker is set, as when the link is turned over";
    case CINORBIS_TILT: return "the telegram's tilt is above 15.00 degrees";
    case CINORBIS_ZERO_TILT: return "the telegram has a direction and no tilt";
    case CINORBIS_FIELD: return "a field of the telegram is too large";
    default: return "no refusal has this number";
    }
}

/* The numbers of an answer, written by every call, even if it refuses. Those that the call or its
 * refusal does not give are 0. */
typedef struct {
    uint64_t penalty; /* of the word found: the sum of the sizes of the readings that it
                         contradicts; under TIED the least one */
    uint64_t gap;     /* to the next best word's penalty: how much all readings together must change
                         before another word is found */
    uint64_t visits;  /* extensions that the walk looked at; under OUT_OF_VISITS the allowance */
    uint64_t place;   /* under ENTRY and NOT_A_WORD */
} cinorbis_numbers;

/* The record that some bytes begin with. All 0 when refused. */
typedef struct {
    uint64_t r;
    uint64_t m;
    uint64_t length; /* of the packed part, which starts at the record's second byte; the next
                        record starts at 1 + length */
    uint64_t place;  /* 0: no record is refused as ENTRY */
} cinorbis_part;

/* What writing a record gives. Both 0 when refused, except the place under ENTRY. */
typedef struct {
    uint64_t next;  /* the place after the record */
    uint64_t place; /* under ENTRY: the number of the reading */
} cinorbis_written;

/* The index of a capture, beside its table. Both 0 when making it is refused. */
typedef struct {
    uint64_t records; /* how many there are */
    uint64_t used;    /* how many bytes they take */
} cinorbis_index;

/* The index of the whole records at the front of a capture, and what ended them. All 0 when
 * refused. */
typedef struct {
    cinorbis_index index; /* as cinorbis_index_make gives it for these index.used bytes */
    uint64_t ended;       /* DONE: the capture's end; PARAMETERS or TORN: that at index.used */
} cinorbis_front;

/* A record of a capture, found by its number. All 0 when refused. */
typedef struct {
    uint64_t r;
    uint64_t m;
    uint64_t start;  /* the packed part starts at capture[start] */
    uint64_t length; /* of the packed part */
    uint64_t place;  /* 0: no record is refused as ENTRY */
} cinorbis_entry;

/* What the tilt head says. All 0 when refused. */
typedef struct {
    uint64_t cylinder;  /* 0 to 7 */
    uint64_t direction; /* 1 is to port */
    uint64_t tilt;      /* hundredths of a degree, 0 to 1500; with 0 the direction is 0 */
} cinorbis_telegram;

/* The archive's CINORBIS_VERSION. Promise: pumpbox::cinorbis_version. */
CINORBIS_CALL uint32_t cinorbis_version(void);

/* ---- Lengths, for a caller who has to lend memory: 0 if there is no such code, or no record with
 * that first byte */

/* n = 2^m. Promise: pumpbox::cinorbis_length. */
CINORBIS_CALL cinorbis_size cinorbis_length(uint32_t m);

/* k, the number of information bits of RM(r,m): (m choose 0) + .. + (m choose r).
 * Promise: pumpbox::cinorbis_dimension. */
CINORBIS_CALL cinorbis_size cinorbis_dimension(uint32_t r, uint32_t m);

/* How many bytes a record has, given its first byte (§7). A number above 255 is not a byte: 0.
 * Promise: record::record_length. */
CINORBIS_CALL cinorbis_size cinorbis_record_length(uint32_t first_byte);

/* ---- Words (§1) */

/* In: k information bits. Out: word, n bits. Refuses PARAMETERS, INPUT_LENGTH,
 * OUTPUT_LENGTH, ENTRY.
 * Promise: encode::encode. */
CINORBIS_CALL uint32_t cinorbis_encode(uint32_t r, uint32_t m, const uint8_t *bits,
                                       cinorbis_size bits_length, uint8_t *word,
                                       cinorbis_size word_length, cinorbis_numbers *numbers);

/* In: a word of n bits. Out: its k information bits. Refuses PARAMETERS, INPUT_LENGTH,
 * OUTPUT_LENGTH, ENTRY, NOT_A_WORD.
 * Promise: encode::inverse. */
CINORBIS_CALL uint32_t cinorbis_inverse(uint32_t r, uint32_t m, const uint8_t *word,
                                        cinorbis_size word_length, uint8_t *bits,
                                        cinorbis_size bits_length, cinorbis_numbers *numbers);

/* ---- From readings to words (§3 to §5) */

/* The quick reading, which may miss the best word. In: n readings. Out: k bits, a word of n bits,
 * its penalty. Refuses PARAMETERS, INPUT_LENGTH, OUTPUT_LENGTH, ENTRY.
 * Promise: quick::quick. */
CINORBIS_CALL uint32_t cinorbis_quick(uint32_t r, uint32_t m, const int16_t *readings,
                                      cinorbis_size readings_length, uint8_t *bits,
                                      cinorbis_size bits_length, uint8_t *word,
                                      cinorbis_size word_length, cinorbis_numbers *numbers);

/* The search for the best word with the default allowance. In: n readings. Out: the k bits and the
 * word of least penalty, that penalty, the gap (above 0) and the visits; the runner-up, always 256
 * bytes. Refuses PARAMETERS, INPUT_LENGTH, OUTPUT_LENGTH, ENTRY, then OUT_OF_VISITS or TIED.
 * Promise: search::search. */
CINORBIS_CALL uint32_t cinorbis_search(uint32_t r, uint32_t m, const int16_t *readings,
                                       cinorbis_size readings_length, uint8_t *bits,
                                       cinorbis_size bits_length, uint8_t *word,
                                       cinorbis_size word_length, uint8_t runner_up[256],
                                       cinorbis_numbers *numbers);

/* The same with an allowance of visits, any number. Promise: search::search_within. */
CINORBIS_CALL uint32_t cinorbis_search_within(uint32_t r, uint32_t m, uint32_t allowed,
                                              const int16_t *readings,
                                              cinorbis_size readings_length, uint8_t *bits,
                                              cinorbis_size bits_length, uint8_t *word,
                                              cinorbis_size word_length, uint8_t runner_up[256],
                                              cinorbis_numbers *numbers);

/* The early answer: the quick reading's word at once if it is surely the best one (§10), otherwise
 * the search with the default allowance. In: n readings. Out: the k bits and the word of least
 * penalty, and that penalty; gap and visits are 0, and there is no runner-up. Refuses PARAMETERS,
 * INPUT_LENGTH, OUTPUT_LENGTH, ENTRY, then OUT_OF_VISITS or TIED if the search was needed, each as
 * cinorbis_search gives it. It pays if most words arrive clean and the readings are clipped near
 * the size that a clean word's readings have (bench/README.md).
 * Promise: early::early. */
CINORBIS_CALL uint32_t cinorbis_early(uint32_t r, uint32_t m, const int16_t *readings,
                                      cinorbis_size readings_length, uint8_t *bits,
                                      cinorbis_size bits_length, uint8_t *word,
                                      cinorbis_size word_length, cinorbis_numbers *numbers);

/* The same with an allowance of visits, any number: with 0 it never walks.
 * Promise: early::early_within. */
CINORBIS_CALL uint32_t cinorbis_early_within(uint32_t r, uint32_t m, uint32_t allowed,
                                             const int16_t *readings, cinorbis_size readings_length,
                                             uint8_t *bits, cinorbis_size bits_length,
                                             uint8_t *word, cinorbis_size word_length,
                                             cinorbis_numbers *numbers);

/* First-order words (§13): the best word of RM(1,m), m from 1 to 8, without a walk. In: n readings.
 * Out: as cinorbis_search with an allowance as large as the whole tree, but visits are always 0,
 * and there is no runner-up. Refuses PARAMETERS (also for r other than 1, and m = 0), INPUT_LENGTH,
 * OUTPUT_LENGTH, ENTRY, then TIED; never OUT_OF_VISITS.
 * Promise: first_order::first_order. */
CINORBIS_CALL uint32_t cinorbis_first_order(uint32_t r, uint32_t m, const int16_t *readings,
                                            cinorbis_size readings_length, uint8_t *bits,
                                            cinorbis_size bits_length, uint8_t *word,
                                            cinorbis_size word_length, cinorbis_numbers *numbers);

/* ---- Shortened sets (§15)
 *
 * A row of n bytes names information indices that are to be 0 as well: 1 where named, 0 where not.
 * These calls do what the plain ones do, with the named indices frozen: k counts the indices that
 * are left, and the inverse gives NOT_A_WORD at a named index that is 1. A row of n zero bytes
 * names none, and all is as without it. The row is refused as NAMED, after PARAMETERS and before
 * INPUT_LENGTH. If the last index, n - 1, is named, the all-ones word is not in the set: a link
 * that is turned over then gives some other word of the set, or a tie; its penalty is larger if the
 * best word that the whole code has for the right signs is in the set. No call refuses because of
 * it (§15). */

/* In: the row, and the information bits that are left. Out: word, n bits. Refuses PARAMETERS,
 * NAMED, INPUT_LENGTH, OUTPUT_LENGTH, ENTRY.
 * Promise: shortened::encode_shortened. */
CINORBIS_CALL uint32_t cinorbis_encode_shortened(uint32_t r, uint32_t m, const uint8_t *named,
                                                 cinorbis_size named_length, const uint8_t *bits,
                                                 cinorbis_size bits_length, uint8_t *word,
                                                 cinorbis_size word_length,
                                                 cinorbis_numbers *numbers);

/* In: the row, and a word of n bits. Out: its information bits. Refuses PARAMETERS, NAMED,
 * INPUT_LENGTH, OUTPUT_LENGTH, ENTRY, NOT_A_WORD.
 * Promise: shortened::inverse_shortened. */
CINORBIS_CALL uint32_t cinorbis_inverse_shortened(uint32_t r, uint32_t m, const uint8_t *named,
                                                  cinorbis_size named_length, const uint8_t *word,
                                                  cinorbis_size word_length, uint8_t *bits,
                                                  cinorbis_size bits_length,
                                                  cinorbis_numbers *numbers);

/* The quick reading in the smaller set. In: the row, and n readings. Out: as cinorbis_quick.
 * Refuses PARAMETERS, NAMED, INPUT_LENGTH, OUTPUT_LENGTH, ENTRY.
 * Promise: shortened::quick_shortened. */
CINORBIS_CALL uint32_t cinorbis_quick_shortened(uint32_t r, uint32_t m, const uint8_t *named,
                                                cinorbis_size named_length, const int16_t *readings,
                                                cinorbis_size readings_length, uint8_t *bits,
                                                cinorbis_size bits_length, uint8_t *word,
                                                cinorbis_size word_length,
                                                cinorbis_numbers *numbers);

/* The search for the best word of the smaller set with the default allowance. In: the row, and n
 * readings. Out: as cinorbis_search. Refuses PARAMETERS, NAMED, INPUT_LENGTH, OUTPUT_LENGTH, ENTRY,
 * then OUT_OF_VISITS or TIED.
 * Promise: shortened_search::search_shortened. */
CINORBIS_CALL uint32_t cinorbis_search_shortened(uint32_t r, uint32_t m, const uint8_t *named,
                                                 cinorbis_size named_length,
                                                 const int16_t *readings,
                                                 cinorbis_size readings_length, uint8_t *bits,
                                                 cinorbis_size bits_length, uint8_t *word,
                                                 cinorbis_size word_length, uint8_t runner_up[256],
                                                 cinorbis_numbers *numbers);

/* The same with an allowance of visits, any number.
 * Promise: shortened_search::search_within_shortened. */
CINORBIS_CALL uint32_t cinorbis_search_within_shortened(
    uint32_t r, uint32_t m, uint32_t allowed, const uint8_t *named, cinorbis_size named_length,
    const int16_t *readings, cinorbis_size readings_length, uint8_t *bits,
    cinorbis_size bits_length, uint8_t *word, cinorbis_size word_length, uint8_t runner_up[256],
    cinorbis_numbers *numbers);

/* The float board (§16): the search of readings that are floats. In: n floats. Out: all that
 * cinorbis_search gives for the whole numbers that they are, runner-up and numbers too; no step is
 * rounded. A float is a reading if and only if it is a whole number from -32767 to 32767; minus
 * zero is 0. Any other entry (a fraction, a number beyond, a NaN, an infinity) is refused as ENTRY.
 * The float mode has to be the default one: if small numbers are flushed to zero, a fraction below
 * 2^-126 is taken for 0. Refuses PARAMETERS, INPUT_LENGTH, OUTPUT_LENGTH, ENTRY, then OUT_OF_VISITS
 * or TIED.
 * Promise: float_search::search_float. */
CINORBIS_CALL uint32_t cinorbis_search_float(uint32_t r, uint32_t m, const float *readings,
                                             cinorbis_size readings_length, uint8_t *bits,
                                             cinorbis_size bits_length, uint8_t *word,
                                             cinorbis_size word_length, uint8_t runner_up[256],
                                             cinorbis_numbers *numbers);

/* The same with an allowance of visits, any number. Promise: float_search::search_float_within. */
CINORBIS_CALL uint32_t cinorbis_search_float_within(
    uint32_t r, uint32_t m, uint32_t allowed, const float *readings, cinorbis_size readings_length,
    uint8_t *bits, cinorbis_size bits_length, uint8_t *word, cinorbis_size word_length,
    uint8_t runner_up[256], cinorbis_numbers *numbers);

/* ---- Packed records (§7). A packed -2048, the bottom rail, is read as -2047. */

/* The record that the bytes begin with: its code and its packed part. Refuses PARAMETERS, TORN,
 * PAD; never ENTRY.
 * Promise: record::header_of, record::packed. */
CINORBIS_CALL uint32_t cinorbis_record(const uint8_t *bytes, cinorbis_size bytes_length,
                                       cinorbis_part *part);

/* Writes a record into a buffer, from a place on. In: n readings, none beyond the largest of a
 * record. Out: the record's bytes in the buffer, all other bytes as they were, and the place after
 * the record, where the next one can go. It takes cinorbis_record_length(16 * m + r) bytes. Refuses
 * PARAMETERS, INPUT_LENGTH, ENTRY, then OUTPUT_LENGTH if the buffer has too little room from the
 * place on; any place may be given.
 * Promise: record::write. */
CINORBIS_CALL uint32_t cinorbis_write_record(uint32_t r, uint32_t m, cinorbis_size place,
                                             const int16_t *readings, cinorbis_size readings_length,
                                             uint8_t *buffer, cinorbis_size buffer_length,
                                             cinorbis_written *written);

/* The readings of a packed part, as cinorbis_record gives it. In: the part's bytes. Out: its n
 * readings; the numbers are all 0. Refuses INPUT_LENGTH for a part of a length that no record has,
 * OUTPUT_LENGTH for a buffer of another length than its readings.
 * Promise: packing::unpack. */
CINORBIS_CALL uint32_t cinorbis_unpack(const uint8_t *part, cinorbis_size part_length,
                                       int16_t *readings, cinorbis_size readings_length,
                                       cinorbis_numbers *numbers);

/* The search of the record that the bytes begin with. Out: as cinorbis_search_within. Refuses
 * PARAMETERS, TORN, PAD, OUTPUT_LENGTH, then OUT_OF_VISITS or TIED; never ENTRY.
 * Promise: record::search_record. */
CINORBIS_CALL uint32_t cinorbis_search_record(uint32_t allowed, const uint8_t *bytes,
                                              cinorbis_size bytes_length, uint8_t *bits,
                                              cinorbis_size bits_length, uint8_t *word,
                                              cinorbis_size word_length, uint8_t runner_up[256],
                                              cinorbis_numbers *numbers);

/* ---- The index of a capture (§14): a lent table with the start of every 16th record, so that any
 * record is found in at most 15 steps. Making it and stepping look at first bytes and lengths only:
 * a pad bit is refused, as PAD, only in the record asked for. */

/* Makes the table of a whole capture. Out: the starts of the records 0, 16, 32 and so on, all later
 * entries as they were, and the index. (records + 15) / 16 entries are enough, and
 * (capture_length / 3 + 15) / 16 always are, since a record has at least 3 bytes. Refuses
 * PARAMETERS or TORN, whichever is met first, then OUTPUT_LENGTH if the table has too few entries.
 * Promise: index::make. */
CINORBIS_CALL uint32_t cinorbis_index_make(const uint8_t *capture, cinorbis_size capture_length,
                                           cinorbis_size *table, cinorbis_size entries,
                                           cinorbis_index *index);

/* Makes the table of the whole records at the front of a capture, whatever follows them: of the
 * longest part that cinorbis_index_make takes. Out: table and index as that call gives them for the
 * part, and what ended it: DONE if it is the whole capture, else the PARAMETERS or TORN that
 * cinorbis_index_make gives for every longer part. Records are then found in these index.used
 * bytes, and appended after them. (capture_length / 3 + 15) / 16 entries are always enough. Refuses
 * only OUTPUT_LENGTH, if the table has too few.
 * Promise: index::front. */
CINORBIS_CALL uint32_t cinorbis_index_front(const uint8_t *capture, cinorbis_size capture_length,
                                            cinorbis_size *table, cinorbis_size entries,
                                            cinorbis_front *front);

/* The record of a number, counted from 0, by way of the table's entry for its block of 16. In: the
 * parts that are in use, index.used bytes and (index.records + 15) / 16 entries; an entry past
 * those is taken as it is. Out: its code, and where its packed part is. Refuses NO_ENTRY if the
 * table has none for it, TORN for an entry at or past the end, PARAMETERS and TORN as met in
 * stepping, NO_ENTRY if the capture ends right before the record, then PARAMETERS, TORN, PAD of the
 * record itself. With a table of another capture it still only refuses or gives some part of the
 * capture.
 * Promise: index::locate. */
CINORBIS_CALL uint32_t cinorbis_index_find(cinorbis_size number, const uint8_t *capture,
                                           cinorbis_size capture_length, const cinorbis_size *table,
                                           cinorbis_size entries, cinorbis_entry *entry);

/* Writes a record after the used part of a capture's buffer, and its entry into the table if its
 * number is a multiple of 16. The index goes in and comes out; if the call refuses, it stays as it
 * is. A new capture begins with an index of {0, 0}, and its table need not be set. Both lengths are
 * the room that there is, not what is used. With the capture's own index and table, both are then
 * those that cinorbis_index_make gives for the longer capture. Refuses PARAMETERS, INPUT_LENGTH,
 * ENTRY, then OUTPUT_LENGTH if either buffer has too little room, or the index counts 2^64 - 1
 * records.
 * Promise: index::append. */
CINORBIS_CALL uint32_t cinorbis_index_append(uint32_t r, uint32_t m, const int16_t *readings,
                                             cinorbis_size readings_length, uint8_t *capture,
                                             cinorbis_size capture_length, cinorbis_size *table,
                                             cinorbis_size entries, cinorbis_index *index,
                                             cinorbis_written *written);

/* ---- Position orders (§12)
 *
 * A map of the n = 2^m positions is a table A of m by m bits, row by row (table[p * m + q]), and a
 * row b of m bits: position j reads position A*j + b, bits modulo 2. Row p of A gives bit p, column
 * q reads bit q, and bit 0 is the least. For m = 0 both are empty. These calls take m without r. A
 * map that no map undoes is refused as MAP. If a word is the best for some readings, the reordered
 * word is the best for the reordered readings, with the same penalty and gap; information bits and
 * visits may differ. */

/* In: a map, and n readings. Out: n readings in its order. Refuses PARAMETERS, INPUT_LENGTH,
 * OUTPUT_LENGTH, MAP, ENTRY.
 * Promise: reorder::reorder. */
CINORBIS_CALL uint32_t cinorbis_reorder(uint32_t m, const uint8_t *table,
                                        cinorbis_size table_length, const uint8_t *row,
                                        cinorbis_size row_length, const int16_t *readings,
                                        cinorbis_size readings_length, int16_t *out,
                                        cinorbis_size out_length, cinorbis_numbers *numbers);

/* The same on n bits. Promise: reorder::reorder_word. */
CINORBIS_CALL uint32_t cinorbis_reorder_word(uint32_t m, const uint8_t *table,
                                             cinorbis_size table_length, const uint8_t *row,
                                             cinorbis_size row_length, const uint8_t *word,
                                             cinorbis_size word_length, uint8_t *out,
                                             cinorbis_size out_length, cinorbis_numbers *numbers);

/* In: a map. Out: the map that undoes it. Refuses PARAMETERS, INPUT_LENGTH, OUTPUT_LENGTH, MAP.
 * Promise: reorder::undo_map. */
CINORBIS_CALL uint32_t cinorbis_undo_map(uint32_t m, const uint8_t *table,
                                         cinorbis_size table_length, const uint8_t *row,
                                         cinorbis_size row_length, uint8_t *table_out,
                                         cinorbis_size table_out_length, uint8_t *row_out,
                                         cinorbis_size row_out_length, cinorbis_numbers *numbers);

/* In: two maps. Out: the map that reorders as the first and then the second do, (A1*A2, A1*b2 +
 * b1). Refuses PARAMETERS, INPUT_LENGTH, OUTPUT_LENGTH, MAP.
 * Promise: reorder::product_map. */
CINORBIS_CALL uint32_t cinorbis_product_map(uint32_t m, const uint8_t *table1,
                                            cinorbis_size table1_length, const uint8_t *row1,
                                            cinorbis_size row1_length, const uint8_t *table2,
                                            cinorbis_size table2_length, const uint8_t *row2,
                                            cinorbis_size row2_length, uint8_t *table_out,
                                            cinorbis_size table_out_length, uint8_t *row_out,
                                            cinorbis_size row_out_length,
                                            cinorbis_numbers *numbers);

/* ---- Tilt telegrams (§11): a word of RM(2,5) that carries cylinder, direction and tilt, and a
 * marker. Readings that show a telegram, all negated as on a link that is turned over, give MARKER:
 * no readings show a tilt on both polarities. (Noise that the code cannot correct may show a wrong
 * telegram, on either polarity.) */

/* Out: word, 32 bits; the numbers are 0. Refuses OUTPUT_LENGTH, TILT, ZERO_TILT, FIELD.
 * Promise: telegram::write. */
CINORBIS_CALL uint32_t cinorbis_telegram_write(uint32_t cylinder, uint32_t direction, uint32_t tilt,
                                               uint8_t *word, cinorbis_size word_length,
                                               cinorbis_numbers *numbers);

/* The telegram of the best word, with the default allowance, which is larger than the whole tree of
 * RM(2,5): it never refuses OUT_OF_VISITS. In: 32 readings. Out: the telegram, and the search's
 * penalty, gap and visits. Refuses INPUT_LENGTH, ENTRY, TIED, then MARKER, TILT, ZERO_TILT; under
 * these three the numbers are 0.
 * Promise: telegram::read. */
CINORBIS_CALL uint32_t cinorbis_telegram_read(const int16_t *readings,
                                              cinorbis_size readings_length,
                                              cinorbis_telegram *telegram,
                                              cinorbis_numbers *numbers);

/* The same with an allowance of visits, any number. Refuses INPUT_LENGTH, ENTRY, then OUT_OF_VISITS
 * or TIED, then MARKER, TILT, ZERO_TILT.
 * Promise: telegram::read_within. */
CINORBIS_CALL uint32_t cinorbis_telegram_read_within(uint32_t allowed, const int16_t *readings,
                                                     cinorbis_size readings_length,
                                                     cinorbis_telegram *telegram,
                                                     cinorbis_numbers *numbers);

/* The telegram that information bits say, for example those of a runner-up: what
 * cinorbis_telegram_read makes of the bits that its search finds. In: 16 bits. Out: the telegram;
 * the numbers are 0, except the place under ENTRY. Refuses INPUT_LENGTH, ENTRY, then MARKER, TILT,
 * ZERO_TILT.
 * Promise: telegram::of_bits. */
CINORBIS_CALL uint32_t cinorbis_telegram_of_bits(const uint8_t *bits, cinorbis_size bits_length,
                                                 cinorbis_telegram *telegram,
                                                 cinorbis_numbers *numbers);

/* ---- Rod positions (§18): a word of RM(1,m), m from 1 to 8, that carries a position from 0 to
 * 2^m - 1, and a marker; it is read without a walk. No readings show a position on both polarities:
 * those that show one, all negated, give MARKER. A rod word with m = 5 is also the word of a
 * telegram, and is read as one: where a link carries both, rod positions take another m. */

/* Out: word, n = 2^m bits; the numbers are 0. Refuses PARAMETERS, OUTPUT_LENGTH, FIELD.
 * Promise: rod::write. */
CINORBIS_CALL uint32_t cinorbis_rod_write(uint32_t m, uint32_t position, uint8_t *word,
                                          cinorbis_size word_length, cinorbis_numbers *numbers);

/* The position of the best word. In: n readings. Out: the position, 0 when refused; penalty and gap
 * as the search's; visits are 0. Refuses PARAMETERS, INPUT_LENGTH, ENTRY, TIED, then MARKER; under
 * MARKER the numbers are 0.
 * Promise: rod::read. */
CINORBIS_CALL uint32_t cinorbis_rod_read(uint32_t m, const int16_t *readings,
                                         cinorbis_size readings_length, uint64_t *position,
                                         cinorbis_numbers *numbers);

#ifdef __cplusplus
}
#endif

#endif
