/* A tilt telegram over a noisy link, and over the same link turned over, where every reading is
 * negated. */
#include "../include/cinorbis.h"
#include <stdio.h>

static void show(const char *link, const int16_t *readings) {
    cinorbis_telegram t;
    cinorbis_numbers a;
    uint32_t refusal = cinorbis_telegram_read(readings, 32, &t, &a);
    if (refusal != CINORBIS_DONE) {
        printf("%s: refused %u, %s\n", link, (unsigned)refusal, cinorbis_refusal_text(refusal));
        return;
    }
    printf("%s: cylinder %u, %u.%02u degrees to %s, penalty %u, gap %u\n", link,
           (unsigned)t.cylinder, (unsigned)t.tilt / 100, (unsigned)t.tilt % 100,
           t.direction ? "port" : "starboard", (unsigned)a.penalty, (unsigned)a.gap);
}

int main(void) {
    uint8_t word[32];
    int16_t readings[32];
    cinorbis_numbers a;
    if (cinorbis_telegram_write(5, 1, 1234, word, 32, &a) != CINORBIS_DONE) return 1;
    for (int j = 0; j < 32; j++)
        readings[j] = (int16_t)((word[j] ? -100 : 100) + j * 67 % 241 - 120);
    show("as it is", readings);
    for (int j = 0; j < 32; j++) readings[j] = (int16_t)-readings[j];
    show("turned over", readings);
    return 0;
}
