/* stops FILE: says where a capture stops in the middle, at which byte of how many and why, to
 * standard output; nothing where it does not. */
#include "../include/cinorbis.h"
#include <stdio.h>

int main(int count, char **arguments) {
    FILE *in = count == 2 ? fopen(arguments[1], "rb") : NULL;
    unsigned long long records = 0, place = 0, left;
    int first;
    if (!in) return perror("stops"), 1;
    while ((first = getc(in)) != EOF) {
        size_t length = cinorbis_record_length((uint32_t)first);
        for (left = 1; (length == 0 || left < length) && getc(in) != EOF;) left++;
        if (left != length) break;
        place += length;
        records++;
    }
    if (ferror(in)) return perror("stops"), 1;
    if (first == EOF) return 0;
    printf("it stops at byte %llu of %llu, in record %llu: ", place, place + left, records);
    if (cinorbis_record_length((uint32_t)first) == 0)
        printf("%02x is the first byte of no record\n", (unsigned)first);
    else
        printf("cut off after %llu of its %zu bytes\n", left,
               (size_t)cinorbis_record_length((uint32_t)first));
    return 0;
}
