/* Decodes one word: readings in, information bits, penalty and gap out, and what the word nearly
 * was. */
#include "../include/cinorbis.h"
#include <stdio.h>

int main(void) {
    const int16_t readings[4] = {5, -2, 3, 1};
    uint8_t bits[3], word[4], runner_up[256];
    cinorbis_numbers a;
    uint32_t refusal = cinorbis_search(1, 2, readings, 4, bits, 3, word, 4, runner_up, &a);
    if (refusal != CINORBIS_DONE) {
        printf("refused %u\n", (unsigned)refusal);
        return 1;
    }
    printf("bits %d%d%d, penalty %u, gap %u, visits %u, runner-up %d%d%d\n", bits[0], bits[1],
           bits[2], (unsigned)a.penalty, (unsigned)a.gap, (unsigned)a.visits, runner_up[0],
           runner_up[1], runner_up[2]);
    return 0;
}
