/* Calls from many threads at once give what they give from one: the library has no data that is
 * written. */
#include "call.h"
#include "check.h"
#include <pthread.h>

#define THREADS 8
#define WORDS 200

typedef struct {
    int16_t readings[32];
    uint8_t bits[16], word[32];
    answer a;
} trial;

static trial alone[WORDS], together[THREADS][WORDS];

static void decode(trial *t) { t->a = search(2, 5, t->readings, 32, t->bits, 16, t->word, 32); }

static void *decode_all(void *first) {
    for (int i = 0; i < WORDS; i++) decode((trial *)first + i);
    return NULL;
}

int main(void) {
    pthread_t threads[THREADS];
    for (int i = 0; i < WORDS; i++)
        for (int j = 0; j < 32; j++) alone[i].readings[j] = random_reading();
    for (int t = 0; t < THREADS; t++) memcpy(together[t], alone, sizeof alone);
    decode_all(alone);
    begin("threads are made");
    for (int t = 0; t < THREADS; t++)
        CHECK(pthread_create(&threads[t], NULL, decode_all, together[t]) == 0, "thread %d", t);
    for (int t = 0; t < THREADS; t++) pthread_join(threads[t], NULL);
    end();
    for (int t = 0; t < THREADS; t++) {
        begin("thread %d finds what one alone finds", t);
        for (int i = 0; i < WORDS; i++)
            CHECK(memcmp(&together[t][i], &alone[i], sizeof(trial)) == 0, "word %d", i);
        end();
    }
    return finish();
}
