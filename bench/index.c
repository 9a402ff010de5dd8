/* Finding a record by the index beside stepping from the beginning, in one process: records 40,000
 * and the last of a capture of a million. Each time is the least of several alternating rounds;
 * both must give the same place. */
#include "draw.h"
#include "../include/cinorbis.h"
#include <stdio.h>
#include <stdlib.h>

#ifndef ROUNDS /* less where bench/run is only tried */
#define RECORDS 1000000u
#define ROUNDS 7
#endif

/* without the index: by each record's first byte */
static size_t stepped(const uint8_t *capture, size_t w) {
    size_t at = 0;
    while (w-- > 0) at += cinorbis_record_length(capture[at]);
    return at;
}

int main(void) {
    static const size_t asked[] = {40000, RECORDS - 1};
    size_t length = 0, entries = (RECORDS + 15) / 16;
    uint8_t *capture = calloc(RECORDS, 13);
    size_t *table = calloc(entries, sizeof *table);
    if (!capture || !table) return 1;
    /* RM(1,3) and RM(1,2) in turn, readings 0 */
    for (size_t w = 0; w < RECORDS; w++) {
        capture[length] = w % 2 ? 0x21 : 0x31;
        length += cinorbis_record_length(capture[length]);
    }
    cinorbis_index index;
    double start = now();
    if (cinorbis_index_make(capture, length, table, entries, &index) != CINORBIS_DONE ||
        index.records != RECORDS)
        return 1;
    printf("a capture of %u records, %zu bytes: its index is made in %.1f ms\n\n", RECORDS, length,
           (now() - start) / 1e6);
    printf("| record | by the index, ns | from the beginning, ns | times |\n|---|---|---|---|\n");
    for (int i = 0; i < 2; i++) {
        double by_index = 1e18, stepping = 1e18;
        for (int round = 0; round < ROUNDS; round++) {
            cinorbis_entry entry = {0, 0, 0, 0, 0};
            start = now();
            for (int j = 0; j < 1000; j++)
                if (cinorbis_index_find(asked[i], capture, length, table, entries, &entry) !=
                    CINORBIS_DONE)
                    return 1;
            double took = (now() - start) / 1000;
            if (took < by_index) by_index = took;
            start = now();
            size_t at = stepped(capture, asked[i]);
            took = now() - start;
            if (took < stepping) stepping = took;
            if (at + 1 != entry.start) return 1;
        }
        printf("| %zu | %.0f | %.0f | %.0f |\n", asked[i], by_index, stepping, stepping / by_index);
    }
    free(capture);
    free(table);
    return 0;
}
