/* The calls whose stack and time are measured, each at its deepest: m = 8, a telegram m = 5. Their
 * arguments are in memory of their own, so that nothing of it is on the stack. */
#ifndef CALLS_H
#define CALLS_H
#include "../include/cinorbis.h"
#include <string.h>

static int16_t readings[256], moved[256];
static float floats[256];
static uint8_t bits[256], word[256], runner_up[256], named[256], table[64], row[8], zeros[16];
static uint8_t record[CINORBIS_LARGEST_RECORD];
static cinorbis_size entries[1];
static cinorbis_telegram shown;
static uint64_t position;
static cinorbis_written written;
static cinorbis_index made;
static cinorbis_entry entry;
static cinorbis_front front;
static cinorbis_numbers numbers;
static volatile uint32_t refusal;

/* the search takes a frame for each information bit, so it is deepest where all 256 are */
static void search(void) {
    refusal = cinorbis_search(8, 8, readings, 256, bits, 256, word, 256, runner_up, &numbers);
}

static void search_4_8(void) {
    refusal = cinorbis_search(4, 8, readings, 256, bits, 163, word, 256, runner_up, &numbers);
}

static void search_2_8(void) {
    refusal = cinorbis_search(2, 8, readings, 256, bits, 37, word, 256, runner_up, &numbers);
}

static void search_2_5(void) {
    refusal = cinorbis_search(2, 5, readings, 32, bits, 16, word, 32, runner_up, &numbers);
}

static void search_float(void) {
    refusal = cinorbis_search_float(8, 8, floats, 256, bits, 256, word, 256, runner_up, &numbers);
}

static void search_float_2_5(void) {
    refusal = cinorbis_search_float(2, 5, floats, 32, bits, 16, word, 32, runner_up, &numbers);
}

static void search_record(void) {
    refusal = cinorbis_search_record(CINORBIS_DEFAULT_ALLOWANCE, record, sizeof record, bits, 256,
                                     word, 256, runner_up, &numbers);
}

static void search_shortened(void) {
    refusal = cinorbis_search_shortened(8, 8, named, 256, readings, 256, bits, 255, word, 256,
                                        runner_up, &numbers);
}

static void early(void) {
    refusal = cinorbis_early(8, 8, readings, 256, bits, 256, word, 256, &numbers);
}

static void quick(void) {
    refusal = cinorbis_quick(4, 8, readings, 256, bits, 163, word, 256, &numbers);
}

static void quick_shortened(void) {
    refusal =
        cinorbis_quick_shortened(4, 8, named, 256, readings, 256, bits, 162, word, 256, &numbers);
}

static void first_order(void) {
    refusal = cinorbis_first_order(1, 8, readings, 256, bits, 9, word, 256, &numbers);
}

static void encode(void) {
    memset(bits, 1, sizeof bits);
    refusal = cinorbis_encode(4, 8, bits, 163, word, 256, &numbers);
}

/* of the word that encode wrote */
static void inverse(void) { refusal = cinorbis_inverse(4, 8, word, 256, bits, 163, &numbers); }

static void encode_shortened(void) {
    memset(bits, 1, sizeof bits);
    refusal = cinorbis_encode_shortened(4, 8, named, 256, bits, 162, word, 256, &numbers);
}

static void inverse_shortened(void) {
    refusal = cinorbis_inverse_shortened(4, 8, named, 256, word, 256, bits, 162, &numbers);
}

static void reorder(void) {
    refusal = cinorbis_reorder(8, table, 64, row, 8, readings, 256, moved, 256, &numbers);
}

static void undo_map(void) {
    refusal = cinorbis_undo_map(8, table, 64, row, 8, bits, 64, word, 8, &numbers);
}

static void product_map(void) {
    refusal =
        cinorbis_product_map(8, table, 64, row, 8, table, 64, row, 8, bits, 64, word, 8, &numbers);
}

static void write_record(void) {
    refusal = cinorbis_write_record(8, 8, 0, readings, 256, record, sizeof record, &written);
}

static void unpack(void) {
    refusal = cinorbis_unpack(record + 1, sizeof record - 1, moved, 256, &numbers);
}

static void index_make(void) {
    refusal = cinorbis_index_make(record, sizeof record, entries, 1, &made);
}

static void index_find(void) {
    refusal = cinorbis_index_find(0, record, sizeof record, entries, 1, &entry);
}

static void index_front(void) {
    refusal = cinorbis_index_front(record, sizeof record, entries, 1, &front);
}

static void index_append(void) {
    made.records = made.used = 0;
    refusal = cinorbis_index_append(8, 8, readings, 256, record, sizeof record, entries, 1, &made,
                                    &written);
}

static void write_telegram(void) {
    refusal = cinorbis_telegram_write(5, 1, 1234, word, 32, &numbers);
}

static void read_telegram(void) {
    refusal = cinorbis_telegram_read(readings, 32, &shown, &numbers);
}

static void telegram_of_bits(void) {
    refusal = cinorbis_telegram_of_bits(zeros, 16, &shown, &numbers);
}

static void write_rod(void) { refusal = cinorbis_rod_write(8, 123, word, 256, &numbers); }

static void read_rod(void) { refusal = cinorbis_rod_read(8, readings, 256, &position, &numbers); }

/* a call's name in words, its export, its information bits, and the refusal that it gives here */
static const struct measured {
    const char *name, *export;
    uint32_t k;
    void (*make)(void);
    uint32_t refusal;
} calls[] = {
    {"encode RM(4,8)", "cinorbis_encode", 163, encode, 0},
    {"inverse RM(4,8)", "cinorbis_inverse", 163, inverse, 0},
    {"quick reading RM(4,8)", "cinorbis_quick", 163, quick, 0},
    {"search RM(8,8)", "cinorbis_search", 256, search, 0},
    {"search RM(4,8)", "cinorbis_search", 163, search_4_8, CINORBIS_OUT_OF_VISITS},
    {"search RM(2,8)", "cinorbis_search", 37, search_2_8, 0},
    {"search RM(2,5)", "cinorbis_search", 16, search_2_5, 0},
    {"encode, shortened", "cinorbis_encode_shortened", 162, encode_shortened, 0},
    {"inverse, shortened", "cinorbis_inverse_shortened", 162, inverse_shortened, 0},
    {"quick reading, shortened", "cinorbis_quick_shortened", 162, quick_shortened, 0},
    {"search, shortened", "cinorbis_search_shortened", 255, search_shortened,
     CINORBIS_OUT_OF_VISITS},
    {"search of a record RM(8,8)", "cinorbis_search_record", 256, search_record, 0},
    {"search of floats RM(8,8)", "cinorbis_search_float", 256, search_float, 0},
    {"search of floats RM(2,5)", "cinorbis_search_float", 16, search_float_2_5, 0},
    {"early answer RM(8,8)", "cinorbis_early", 256, early, 0},
    /* two words of RM(1,8) share the least penalty */
    {"first-order words RM(1,8)", "cinorbis_first_order", 9, first_order, CINORBIS_TIED},
    {"reordering, m = 8", "cinorbis_reorder", 0, reorder, 0},
    {"undo map, m = 8", "cinorbis_undo_map", 0, undo_map, 0},
    {"product of maps, m = 8", "cinorbis_product_map", 0, product_map, 0},
    {"writing a record, m = 8", "cinorbis_write_record", 0, write_record, 0},
    {"unpacking, m = 8", "cinorbis_unpack", 0, unpack, 0},
    {"making an index", "cinorbis_index_make", 0, index_make, 0},
    {"the front of a capture", "cinorbis_index_front", 0, index_front, 0},
    {"finding a record", "cinorbis_index_find", 0, index_find, 0},
    {"appending a record", "cinorbis_index_append", 0, index_append, 0},
    {"writing a telegram", "cinorbis_telegram_write", 16, write_telegram, 0},
    /* readings of no telegram: the word found has the marker set */
    {"reading a telegram", "cinorbis_telegram_read", 16, read_telegram, CINORBIS_MARKER},
    {"the telegram of bits", "cinorbis_telegram_of_bits", 16, telegram_of_bits, 0},
    {"writing a rod position, m = 8", "cinorbis_rod_write", 9, write_rod, 0},
    {"reading a rod position, m = 8", "cinorbis_rod_read", 9, read_rod, CINORBIS_TIED},
};
#define CALLS (sizeof calls / sizeof *calls)

/* what the calls are given: readings that are no word's, none of them 0; the map that leaves every
 * position where it is; a row that names the last index. Gives whether that was done. */
static int prepare(void) {
    for (int j = 0; j < 256; j++) readings[j] = (int16_t)(((j * 7919) % 4095 - 2047) | 1);
    for (int j = 0; j < 256; j++) floats[j] = (float)readings[j];
    for (int p = 0; p < 8; p++) table[9 * p] = 1;
    named[255] = 1;
    write_record();
    return refusal == CINORBIS_DONE;
}

#endif
