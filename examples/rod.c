/* A rod position over a noisy link, and over the same link turned over, where every reading is
 * negated. Rod words have n = 64 bits here: a telegram, which has 32, is never taken for one. */
#include "../include/cinorbis.h"
#include <stdio.h>

enum { M = 6, N = 64 };

static void show(const char *link, const int16_t *readings) {
    uint64_t position;
    cinorbis_numbers a;
    uint32_t refusal = cinorbis_rod_read(M, readings, N, &position, &a);
    if (refusal != CINORBIS_DONE) {
        printf("%s: refused %u, %s\n", link, (unsigned)refusal, cinorbis_refusal_text(refusal));
        return;
    }
    printf("%s: position %u of 0 to %u, penalty %u, gap %u\n", link, (unsigned)position, N - 1,
           (unsigned)a.penalty, (unsigned)a.gap);
}

int main(void) {
    uint8_t word[N];
    int16_t readings[N];
    cinorbis_numbers a;
    if (cinorbis_rod_write(M, 41, word, N, &a) != CINORBIS_DONE) return 1;
    for (int j = 0; j < N; j++)
        readings[j] = (int16_t)((word[j] ? -100 : 100) + j * 67 % 241 - 120);
    show("as it is", readings);
    for (int j = 0; j < N; j++) readings[j] = (int16_t)-readings[j];
    show("turned over", readings);
    return 0;
}
