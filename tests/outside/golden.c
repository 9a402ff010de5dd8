/* Words and nearest words made by GAP's package GUAVA (tests/golden/guava.txt): encode, inverse,
 * and the search of hard readings. golden FILE LINES: the file must have just so many lines. */
#include "call.h"
#include "check.h"
#include "reference.h"
#include <stdlib.h>

static void row(const char *text, uint8_t *out) {
    for (size_t i = 0; text[i]; i++) out[i] = (uint8_t)(text[i] - '0');
}

int main(int argc, char **argv) {
    char a[300], b[300], kind[8];
    unsigned r, m;
    FILE *f = argc == 3 ? fopen(argv[1], "r") : NULL;
    if (!f) {
        puts("golden: no file");
        return 1;
    }
    while (fscanf(f, "%7s %u %u %299s %299s", kind, &r, &m, a, b) == 5) {
        uint8_t x[256], y[256], bits[256], word[256];
        size_t n = (size_t)1 << m, k = (size_t)ref_k((int)r, (int)m);
        begin("%s RM(%u,%u) %.40s", kind, r, m, a);
        row(a, x);
        row(b, y);
        if (strcmp(kind, "enc") == 0) {
            CHECK(strlen(a) == k && strlen(b) == n, "lengths");
            CHECK(encode(r, m, x, k, word, n).refusal == 0 && memcmp(word, y, n) == 0, "encode");
            CHECK(inverse(r, m, y, n, bits, k).refusal == 0 && memcmp(bits, x, k) == 0, "inverse");
        } else {
            int16_t l[256];
            unsigned errors = 0;
            CHECK(strlen(a) == n && strlen(b) == n, "lengths");
            for (size_t j = 0; j < n; j++) {
                l[j] = x[j] ? -1 : 1;
                errors += x[j] != y[j];
            }
            answer s = search_within(r, m, UINT32_MAX, l, n, bits, k, word, n);
            CHECK(s.refusal == 0 && memcmp(word, y, n) == 0 && s.penalty == errors,
                  "search: %u, penalty %u of %u", s.refusal, s.penalty, errors);
        }
        end();
    }
    begin("every line is read");
    CHECK(feof(f) && cases_passed + cases_failed == strtoul(argv[2], NULL, 10), "%lu lines",
          cases_passed + cases_failed);
    end();
    fclose(f);
    return finish();
}
