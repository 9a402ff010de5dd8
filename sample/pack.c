/* pack FILE: a capture from readings in text, to standard output; - is standard input.
 * Each line is one record: r, m and then the 2^m readings, with blanks between; what follows a # is
 * left out. All lines are tested before a byte is written. The first that is refused is named, with
 * its field; the exit status is then 1. */
#include "../include/cinorbis.h"
#include <ctype.h>
#include <errno.h>
#include <stdarg.h>
#include <stdio.h>
#include <stdlib.h>
#include <string.h>

/* r, m and the readings of the longest record */
#define MOST (2 + CINORBIS_LARGEST_N)

/* the records so far */
static uint8_t *capture;
static size_t used, room;

static const char *name;
static unsigned long line_number;

/* says what is wrong with the line, or with one field of it (counted from 1; 0: with no field
 * alone) */
static int refuse(size_t field, const char *why, ...) {
    va_list more;
    fprintf(stderr, "pack: %s: line %lu", name, line_number);
    if (field) fprintf(stderr, ", field %zu", field);
    fprintf(stderr, ": ");
    va_start(more, why);
    vfprintf(stderr, why, more);
    va_end(more);
    fprintf(stderr, "; nothing was written\n");
    return 1;
}

/* splits a line into its fields: how many there are, of which the first MOST are kept */
static size_t fields_of(char *line, char **fields) {
    size_t count = 0;
    line[strcspn(line, "#")] = 0;
    for (char *field = strtok(line, " \t\r"); field; field = strtok(NULL, " \t\r"), count++)
        if (count < MOST) fields[count] = field;
    return count;
}

/* a whole number, or the nearest one from low to high; 0 where it is none */
static int whole(const char *field, long low, long high, long *value) {
    char *end;
    *value = strtol(field, &end, 10);
    if (end == field || *end) return 0;
    *value = *value < low ? low : *value > high ? high : *value;
    return 1;
}

/* says that a field is no whole number: what it is, where that can be shown */
static int no_number(size_t place, char *field) {
    for (char *c = field; *c; c++)
        if (!isprint((unsigned char)*c)) *c = '?';
    return refuse(place + 1, "'%.40s' is not a whole number", field);
}

/* the refusal of a record in the words of this command */
static int explain(uint32_t refusal, char **fields, size_t count, size_t expected, size_t place) {
    switch (refusal) {
    case CINORBIS_PARAMETERS:
        return refuse(0, "there is no code RM(%.20s,%.20s): m is from 0 to 8, and r from 0 to m",
                      fields[0], fields[1]);
    case CINORBIS_INPUT_LENGTH:
        return refuse(0, "a record of RM(%.20s,%.20s) has %zu readings, and there are %zu here",
                      fields[0], fields[1], expected, count);
    case CINORBIS_ENTRY:
        if (strtol(fields[2 + place], NULL, 10) == -CINORBIS_LARGEST_RECORD_READING - 1)
            return refuse(3 + place, "-2048 is the modem's bottom rail, which is read as -2047 and "
                                     "never written: write -2047");
        return refuse(3 + place, "%.20s is beyond what a record holds, which is -2047 to 2047",
                      fields[2 + place]);
    default: return refuse(0, "%s", cinorbis_refusal_text(refusal));
    }
}

/* adds the record of a line to the capture */
static int add(char *line) {
    char *fields[MOST];
    size_t count = fields_of(line, fields), kept = count < MOST ? count : MOST;
    long r, m, value;
    int16_t readings[MOST] = {0};
    cinorbis_written written;
    if (count == 0) return 0;
    if (count < 2) return refuse(0, "r and m come first, and then the readings");
    if (!whole(fields[0], -1, 1000, &r)) return no_number(0, fields[0]);
    if (!whole(fields[1], -1, 1000, &m)) return no_number(1, fields[1]);
    for (size_t j = 2; j < kept; j++) {
        if (!whole(fields[j], INT16_MIN, INT16_MAX, &value)) return no_number(j, fields[j]);
        readings[j - 2] = (int16_t)value;
    }
    if (room - used < CINORBIS_LARGEST_RECORD) {
        uint8_t *larger = realloc(capture, room = 2 * room + CINORBIS_LARGEST_RECORD);
        if (!larger) return refuse(0, "no memory for so many records");
        capture = larger;
    }
    /* a negative r or m becomes a number that is far too large; 257 readings stand for any larger
     * number of them */
    uint32_t refusal = cinorbis_write_record((uint32_t)r, (uint32_t)m, used, readings,
                                             kept - 2 + (count > kept), capture, room, &written);
    if (refusal)
        return explain(refusal, fields, count - 2, (size_t)cinorbis_length((uint32_t)m),
                       (size_t)written.place);
    used = (size_t)written.next;
    return 0;
}

/* the next line, without its end: its length, -1 where there is none, -2 where it is too long, -3
 * where it has a NUL */
static long line_of(FILE *in, char *line, size_t size) {
    size_t length = 0;
    int c = getc(in);
    if (c == EOF) return -1;
    for (; c != EOF && c != '\n'; c = getc(in)) {
        if (c == 0) return -3;
        if (length + 1 == size) return -2;
        line[length++] = (char)c;
    }
    line[length] = 0;
    return (long)length;
}

/* says why a file cannot be read or written */
static int fail(const char *what, const char *which) {
    fprintf(stderr, "pack: cannot %s %s: %s\n", what, which, strerror(errno));
    return 1;
}

int main(int count, char **arguments) {
    static char line[1 << 16];
    if (count != 2) return fprintf(stderr, "usage: pack FILE >CAPTURE\n"), 2;
    int piped = !strcmp(arguments[1], "-");
    name = piped ? "standard input" : arguments[1];
    FILE *in = piped ? stdin : fopen(name, "r");
    if (!in) return fail("read", name);
    long length;
    errno = 0;
    for (line_number = 1; (length = line_of(in, line, sizeof line)) != -1; line_number++) {
        if (length == -2) return refuse(0, "it has more than %zu characters", sizeof line - 1);
        if (length == -3)
            return refuse(0, "it has a NUL, so this is no text (sample/decode reads captures)");
        if (add(line)) return 1;
    }
    if (ferror(in)) return fail("read", name);
    if (used == 0) fprintf(stderr, "pack: %s: no records, so the capture is empty\n", name);
    if (fwrite(capture, 1, used, stdout) != used || fflush(stdout))
        return fail("write", "the capture");
    return 0;
}
