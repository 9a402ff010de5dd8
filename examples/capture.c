/* A capture in memory: records appended, one found by its number, its readings unpacked and
 * searched. */
#include "../include/cinorbis.h"
#include <stdio.h>

#define ROOM 4096u
/* a record has at least 3 bytes, so this many entries are always enough */
#define ENTRIES ((ROOM / 3u + 15u) / 16u)

int main(void) {
    static uint8_t capture[ROOM];
    static cinorbis_size table[ENTRIES];
    cinorbis_index index = {0, 0}; /* an empty capture */
    cinorbis_written written;
    for (int16_t i = 0; i < 40; i++) {
        const int16_t readings[4] = {(int16_t)(5 + i), -2, 3, 1};
        if (cinorbis_index_append(1, 2, readings, 4, capture, ROOM, table, ENTRIES, &index,
                                  &written) != CINORBIS_DONE)
            return 1;
    }
    /* what is asked takes the bytes and the entries in use, not the room for them */
    size_t used = (size_t)index.used, entries = ((size_t)index.records + 15) / 16;
    cinorbis_entry found;
    uint32_t refusal = cinorbis_index_find(37, capture, used, table, entries, &found);
    if (refusal != CINORBIS_DONE)
        return printf("refused %u, %s\n", (unsigned)refusal, cinorbis_refusal_text(refusal)), 1;
    uint32_t r = (uint32_t)found.r, m = (uint32_t)found.m;
    size_t n = (size_t)cinorbis_length(m), k = (size_t)cinorbis_dimension(r, m);
    int16_t readings[CINORBIS_LARGEST_N];
    uint8_t bits[CINORBIS_LARGEST_N], word[CINORBIS_LARGEST_N], runner_up[CINORBIS_LARGEST_N];
    cinorbis_numbers a;
    if (cinorbis_unpack(capture + found.start, (size_t)found.length, readings, n, &a) !=
        CINORBIS_DONE)
        return 1;
    refusal = cinorbis_search(r, m, readings, n, bits, k, word, n, runner_up, &a);
    if (refusal != CINORBIS_DONE)
        return printf("refused %u, %s\n", (unsigned)refusal, cinorbis_refusal_text(refusal)), 1;
    printf("record 37 of %u, RM(%u,%u), first reading %d: bits ", (unsigned)index.records,
           (unsigned)r, (unsigned)m, readings[0]);
    for (size_t i = 0; i < k; i++) printf("%d", bits[i]);
    printf(", penalty %u, gap %u\n", (unsigned)a.penalty, (unsigned)a.gap);
    return 0;
}
