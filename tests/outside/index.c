/* The index of a capture against a reference that shares nothing with the library: a list of starts
 * made by the text of the rules, captures that are whole, torn or damaged, own and foreign tables,
 * every record's number and far beyond, several faults at once, appends one after another; the
 * front of any bytes at all, and every longer part of them. */
#include "call.h"
#include "check.h"

#define BYTES 40000
#define STARTS 2000
#define ENTRIES 200
#define EDGE 8

/* ---- the reference: a first byte's upper half is m, its lower half r; 12 bits for each reading,
 * to a whole byte */
static cinorbis_size bytes_of(uint8_t first) {
    unsigned m = first / 16, r = first % 16;
    return m > 8 || r > m ? 0 : 1 + ((12u << m) + 7) / 8;
}

/* the place after one record, or a refusal */
static uint32_t one_step(const uint8_t *s, cinorbis_size n, cinorbis_size at, cinorbis_size *next) {
    if (at >= n) return 8;
    cinorbis_size k = bytes_of(s[at]);
    if (k == 0) return 1;
    if (n - at < k) return 8;
    *next = at + k;
    return 0;
}

/* all starts, or the first refusal */
static uint32_t all_starts(const uint8_t *s, cinorbis_size n, cinorbis_size *starts,
                           cinorbis_size *count) {
    cinorbis_size at = 0;
    for (*count = 0; at < n; ++*count) {
        cinorbis_size next = 0;
        uint32_t why = one_step(s, n, at, &next);
        if (why) return why;
        starts[*count] = at;
        at = next;
    }
    return 0;
}

/* the whole records at the front: their starts, the bytes that they use, and the refusal that ends
 * them */
static uint32_t at_front(const uint8_t *s, cinorbis_size n, cinorbis_size *starts,
                         cinorbis_size *count, cinorbis_size *used) {
    uint32_t why = 0;
    cinorbis_size next = 0;
    for (*count = *used = 0; *used < n && (why = one_step(s, n, *used, &next)) == 0; ++*count) {
        starts[*count] = *used;
        *used = (cinorbis_size)next;
    }
    return why;
}

/* record w by a table */
static uint32_t by_table(const uint8_t *s, cinorbis_size n, const cinorbis_size *t,
                         cinorbis_size entries, cinorbis_size w, cinorbis_size *start) {
    if (w / 16 >= entries) return 10;
    cinorbis_size at = t[w / 16];
    if (at >= n) return 8;
    for (cinorbis_size j = w % 16; j > 0; j--) {
        uint32_t why = one_step(s, n, at, &at);
        if (why) return why;
    }
    if (at == n) return 10;
    cinorbis_size next;
    uint32_t why = one_step(s, n, at, &next);
    if (why) return why;
    if (s[at] / 16 == 0 && s[at + 2] % 16 != 0) return 9;
    *start = at;
    return 0;
}

/* record w from the beginning */
static uint32_t from_beginning(const uint8_t *s, cinorbis_size n, cinorbis_size w,
                               cinorbis_size *start) {
    cinorbis_size zero = 0, at = 0;
    for (cinorbis_size j = w; j > 0; j--) {
        uint32_t why = one_step(s, n, at, &at);
        if (why) return why;
    }
    if (at == n) return 10;
    cinorbis_size table[1] = {at};
    return by_table(s, n, table, 1, zero, start);
}

/* ---- buffers with guards */
static uint8_t capture[EDGE + BYTES + EDGE], capture_before[EDGE + BYTES + EDGE];
static cinorbis_size table[EDGE + ENTRIES + EDGE], table_before[EDGE + ENTRIES + EDGE],
    starts[STARTS];

static void keep(void) {
    memcpy(capture_before, capture, sizeof capture);
    memcpy(table_before, table, sizeof table);
}

static int kept(void) {
    return memcmp(capture_before, capture, sizeof capture) == 0 &&
           memcmp(table_before, table, sizeof table) == 0;
}

/* a record of k bytes and its entry were added to what was kept, and nothing else; both are taken
 * off again */
static void only_appended(cinorbis_index before, cinorbis_size k) {
    memcpy(capture + EDGE + before.used, capture_before + EDGE + before.used, k);
    if (before.records % 16 == 0) {
        CHECK(table[EDGE + before.records / 16] == before.used, "another entry");
        table[EDGE + before.records / 16] = table_before[EDGE + before.records / 16];
    }
    CHECK(kept(), "a byte or an entry beside it");
}

static void scramble(void) {
    for (cinorbis_size i = 0; i < sizeof capture; i++) capture[i] = (uint8_t)random64();
    for (cinorbis_size i = 0; i < sizeof table / sizeof table[0]; i++)
        table[i] = (cinorbis_size)random64();
}

/* so many whole records of small codes; pads are arbitrary. Gives the bytes. */
static cinorbis_size fill(cinorbis_size records) {
    cinorbis_size at = 0;
    scramble();
    for (cinorbis_size w = 0; w < records; w++) {
        unsigned m = (unsigned)random_below(random_below(8) ? 3 : 6);
        capture[EDGE + at] = (uint8_t)(16 * m + (unsigned)random_below((int)m + 1));
        at += bytes_of(capture[EDGE + at]);
    }
    return at;
}

static void found(const uint8_t *s, cinorbis_size n, const cinorbis_size *t, cinorbis_size entries,
                  cinorbis_size w) {
    cinorbis_entry e;
    cinorbis_size start = 0;
    memset(&e, 0xA5, sizeof e);
    uint32_t expected = by_table(s, n, t, entries, w, &start),
             given = cinorbis_index_find(w, s, n, t, entries, &e);
    CHECK(given == expected, "record %" PRI_SIZE ": %u, not %u", w, given, expected);
    if (expected)
        CHECK(e.r == 0 && e.m == 0 && e.start == 0 && e.length == 0 && e.place == 0,
              "numbers under %u", expected);
    else
        CHECK(e.r == s[start] % 16u && e.m == s[start] / 16u && e.start == start + 1 &&
                  e.length == bytes_of(s[start]) - 1 && e.place == 0,
              "record %" PRI_SIZE ": start %" PRIu64 ", length %" PRIu64, w, e.start, e.length);
    if (!expected) CHECK(e.start + e.length <= n, "outside of the capture");
}

static void whole_captures(void) {
    begin("whole captures: make, the table's entries, every record, and past the last");
    for (cinorbis_size records = 0; records < 70; records++)
        for (int t = 0; t < 4; t++) {
            cinorbis_size n = fill(records), count, entries = (records + 15) / 16;
            cinorbis_index index;
            CHECK(all_starts(capture + EDGE, n, starts, &count) == 0 && count == records,
                  "the reference counts %" PRI_SIZE, count);
            keep();
            memset(&index, 0xA5, sizeof index);
            CHECK(cinorbis_index_make(capture + EDGE, n, table + EDGE, entries + (cinorbis_size)t,
                                      &index) == 0,
                  "refused");
            CHECK(index.records == records && index.used == n,
                  "%" PRIu64 " records, %" PRIu64 " bytes", index.records, index.used);
            for (cinorbis_size q = 0; q < entries; q++) {
                CHECK(table[EDGE + q] == starts[16 * q], "entry %" PRI_SIZE, q);
                table[EDGE + q] = table_before[EDGE + q];
            }
            CHECK(kept(), "an entry past those made, or a byte of the capture");
            for (cinorbis_size q = 0; q < entries; q++) table[EDGE + q] = starts[16 * q];
            for (cinorbis_size w = 0; w < records + 40; w++) {
                cinorbis_size a = 0, b = 0;
                found(capture + EDGE, n, table + EDGE, entries, w);
                uint32_t x = by_table(capture + EDGE, n, table + EDGE, entries, w, &a),
                         y = from_beginning(capture + EDGE, n, w, &b);
                if (w / 16 < entries)
                    CHECK(x == y && a == b,
                          "record %" PRI_SIZE ": %u by the table, %u from the beginning", w, x, y);
                else
                    CHECK(x == 10 && y == (w == records ? 10u : 8u), "past the table: %u and %u", x,
                          y);
            }
        }
    end();
}

static void refused(void) {
    begin("making: 1 or 8, whichever is met first, then 3; nothing is written");
    for (int t = 0; t < 3000; t++) {
        cinorbis_size records = (cinorbis_size)random_below(60), n = fill(records), count,
                      room = (cinorbis_size)random_below(6);
        if (t % 3 == 1 && n)
            capture[EDGE + (cinorbis_size)random_below((int)n)] = (uint8_t)random64();
        if (t % 3 == 2 && n) n -= (cinorbis_size)random_below((int)(n < 9 ? n : 9));
        if (t % 5 == 0) n += (cinorbis_size)random_below(4);
        uint32_t why = all_starts(capture + EDGE, n, starts, &count),
                 expected = why                        ? why
                            : room < (count + 15) / 16 ? 3
                                                       : 0;
        cinorbis_index index;
        memset(&index, 0xA5, sizeof index);
        keep();
        uint32_t given = cinorbis_index_make(capture + EDGE, n, table + EDGE, room, &index);
        CHECK(given == expected, "%u, not %u", given, expected);
        if (expected)
            CHECK(kept() && index.records == 0 && index.used == 0, "written under %u", expected);
    }
    end();
}

/* bytes that begin as a capture and go on as anything, or are anything from the start */
static cinorbis_size any_bytes(int kind) {
    cinorbis_size n = fill((cinorbis_size)random_below(60));
    if (kind == 1 && n) capture[EDGE + (cinorbis_size)random_below((int)n)] = (uint8_t)random64();
    if (kind == 2 && n) n -= (cinorbis_size)random_below((int)(n < 9 ? n : 9));
    if (kind == 3) n += (cinorbis_size)random_below(400);
    if (kind == 4) n = (cinorbis_size)random_below(300);
    return n;
}

/* making refuses longer parts with the number that ended the front, also where it has no entry to
 * write into */
static void longer_parts(cinorbis_size n, cinorbis_size used, uint32_t ended) {
    for (cinorbis_size k = used + 1; k <= n; k += 1 + (k - used) / 8) {
        cinorbis_index index;
        CHECK(cinorbis_index_make(capture + EDGE, k, table + EDGE, k % 2 ? ENTRIES : 0, &index) ==
                  ended,
              "%" PRI_SIZE " bytes of %" PRI_SIZE, k, n);
    }
}

static void fronts(void) {
    unsigned long met[9] = {0};
    begin("the front of any bytes: its index and table as made of it, what ended it, and no longer "
          "part");
    for (int t = 0; t < 1000; t++) {
        cinorbis_size n = any_bytes(t % 5), count, used, room = (n / 3 + 15) / 16;
        uint32_t ended = at_front(capture + EDGE, n, starts, &count, &used);
        cinorbis_front front;
        cinorbis_index index;
        memset(&front, 0xA5, sizeof front);
        keep();
        CHECK(cinorbis_index_front(capture + EDGE, n, table + EDGE, room, &front) == 0,
              "no room in %" PRI_SIZE " entries for %" PRI_SIZE " bytes", room, n);
        CHECK(front.index.records == count && front.index.used == used && front.ended == ended,
              "%" PRIu64 " records, %" PRIu64 " bytes, ended by %" PRIu64, front.index.records,
              front.index.used, front.ended);
        for (cinorbis_size q = 0; 16 * q < count; q++) {
            CHECK(table[EDGE + q] == starts[16 * q], "entry %" PRI_SIZE, q);
            table[EDGE + q] = table_before[EDGE + q];
        }
        CHECK(kept(), "an entry past those made, or a byte of the capture");
        CHECK(cinorbis_index_make(capture + EDGE, used, table + EDGE, room, &index) == 0,
              "the front is not made");
        CHECK(memcmp(&index, &front.index, sizeof index) == 0, "another index of the front");
        for (cinorbis_size w = 0; w < count; w++)
            found(capture + EDGE, used, table + EDGE, room, w);
        longer_parts(n, used, ended);
        CHECK(ended == 0 ? used == n : used < n,
              "ended by %u after %" PRI_SIZE " of %" PRI_SIZE " bytes", ended, used, n);
        met[ended]++;
    }
    CHECK(met[0] && met[1] && met[8], "not met: %lu %lu %lu", met[0], met[1], met[8]);
    end();
    begin("the front: 3 where the table has too few entries, and then nothing else");
    for (int t = 0; t < 1000; t++) {
        cinorbis_size n = any_bytes(t % 5), count, used;
        uint32_t ended = at_front(capture + EDGE, n, starts, &count, &used);
        cinorbis_size needed = (count + 15) / 16;
        cinorbis_front front;
        for (cinorbis_size room = 0; room <= needed; room++) {
            memset(&front, 0xA5, sizeof front);
            keep();
            CHECK(cinorbis_index_front(capture + EDGE, n, table + EDGE, room, &front) ==
                      (room < needed ? 3u : 0u),
                  "%" PRI_SIZE " entries of %" PRI_SIZE, room, needed);
            if (room < needed)
                CHECK(kept() && front.index.records == 0 && front.index.used == 0 &&
                          front.ended == 0,
                      "written under 3");
            else
                CHECK(front.index.records == count && front.ended == ended, "%" PRIu64 " records",
                      front.index.records);
        }
    }
    end();
}

/* a torn capture is carried on after its front: as if its whole records alone had been there */
static void carried_on(void) {
    begin("appends after a front: index and table are those made of the longer capture");
    for (int t = 0; t < 300; t++) {
        cinorbis_size n = any_bytes(1 + t % 4);
        cinorbis_front front;
        cinorbis_index fresh;
        cinorbis_written w;
        CHECK(cinorbis_index_front(capture + EDGE, n, table + EDGE, ENTRIES, &front) == 0,
              "refused");
        for (int j = 0; j < 20; j++) {
            int16_t l[2] = {(int16_t)random_between(-2047, 2047),
                            (int16_t)random_between(-2047, 2047)};
            CHECK(cinorbis_index_append(1, 1, l, 2, capture + EDGE, BYTES, table + EDGE, ENTRIES,
                                        &front.index, &w) == 0,
                  "not appended");
        }
        keep();
        CHECK(cinorbis_index_make(capture + EDGE, front.index.used, table + EDGE, ENTRIES,
                                  &fresh) == 0,
              "not made");
        CHECK(kept() && memcmp(&fresh, &front.index, sizeof fresh) == 0,
              "another index or table when made from scratch");
    }
    end();
}

static void foreign_tables(void) {
    static const cinorbis_size far_off[] = {
        UINT64_MAX,     UINT64_MAX - 1,  UINT64_MAX - 15,       UINT64_MAX - 16,
        UINT64_MAX / 2, UINT64_MAX / 16, (cinorbis_size)1 << 60};
    begin("any table and any number: refused, or a part of the capture; nothing is written");
    for (int t = 0; t < 3000; t++) {
        cinorbis_size n = fill((cinorbis_size)random_below(40)),
                      entries = (cinorbis_size)random_below(5);
        if (t % 3 == 0 && n) n -= (cinorbis_size)random_below((int)(n < 30 ? n : 30));
        for (cinorbis_size q = 0; q < entries; q++) {
            int kind = random_below(6);
            table[EDGE + q] = kind == 0   ? far_off[random_below(7)]
                              : kind == 1 ? n
                              : kind == 2 ? n + 1
                              : n         ? (cinorbis_size)random64() % n
                                          : 0;
        }
        keep();
        for (int j = 0; j < 40; j++) {
            cinorbis_size w = j < 7 ? far_off[j] : (cinorbis_size)random_below(90);
            found(capture + EDGE, n, table + EDGE, entries, w);
        }
        CHECK(kept(), "written");
    }
    end();
}

static void pads(void) {
    begin("a pad bit is refused as 9 in the record asked for, not in one stepped over");
    for (int t = 0; t < 200; t++) {
        cinorbis_size records = 20, n = 3 * records,
                      bad = (cinorbis_size)random_below((int)records), zero = 0;
        cinorbis_entry e;
        cinorbis_index index;
        scramble();
        for (cinorbis_size w = 0; w < records; w++)
            capture[EDGE + 3 * w] = 0, capture[EDGE + 3 * w + 2] = (uint8_t)(16 * random_below(16));
        capture[EDGE + 3 * bad + 2] |= (uint8_t)(1 << random_below(4));
        CHECK(cinorbis_index_make(capture + EDGE, n, table + EDGE, 2, &index) == 0 &&
                  index.records == records,
              "not made");
        for (cinorbis_size w = 0; w < records; w++)
            CHECK(cinorbis_index_find(w, capture + EDGE, n, table + EDGE, 2, &e) ==
                      (w == bad ? 9u : 0u),
                  "record %" PRI_SIZE, w);
        CHECK(cinorbis_index_find(bad % 16, capture + EDGE, n, &zero, 1, &e) ==
                  (bad < 16 ? 9u : 0u),
              "by a table of one entry");
    }
    end();
}

static void appends(void) {
    begin("appends one after another: both buffers, the index, and the same made from scratch");
    for (int t = 0; t < 12; t++) {
        scramble();
        cinorbis_index index = {0, 0};
        cinorbis_size room = 1200 + (cinorbis_size)random_below(300),
                      entries = (cinorbis_size)random_between(1, 6);
        for (int j = 0; j < 120; j++) {
            uint32_t m = (uint32_t)random_below(3), r = (uint32_t)random_below((int)m + 1);
            int16_t l[4];
            cinorbis_size n = (cinorbis_size)1 << m, k = bytes_of((uint8_t)(16 * m + r));
            for (cinorbis_size i = 0; i < n; i++) l[i] = (int16_t)random_between(-2047, 2047);
            cinorbis_index before = index, fresh;
            cinorbis_written w;
            memset(&w, 0xA5, sizeof w);
            keep();
            int no_bytes = room - index.used < k,
                no_entry = index.records % 16 == 0 && index.records / 16 >= entries;
            uint32_t given = cinorbis_index_append(r, m, l, n, capture + EDGE, room, table + EDGE,
                                                   entries, &index, &w);
            CHECK(given == (no_bytes || no_entry ? 3u : 0u), "%u", given);
            if (given) {
                CHECK(kept() && memcmp(&before, &index, sizeof index) == 0 && w.next == 0 &&
                          w.place == 0,
                      "written, and then refused");
                continue;
            }
            CHECK(index.records == before.records + 1 && index.used == before.used + k &&
                      w.next == index.used && w.place == 0,
                  "another index");
            cinorbis_written plain;
            uint8_t record[400];
            CHECK(cinorbis_write_record(r, m, 0, l, n, record, k, &plain) == 0 &&
                      memcmp(record, capture + EDGE + before.used, k) == 0,
                  "other bytes");
            only_appended(before, k);
            memcpy(capture + EDGE + before.used, record, k);
            if (before.records % 16 == 0) table[EDGE + before.records / 16] = before.used;
            keep();
            CHECK(cinorbis_index_make(capture + EDGE, index.used, table + EDGE, entries, &fresh) ==
                      0,
                  "not made");
            CHECK(kept() && fresh.records == index.records && fresh.used == index.used,
                  "another index or table when made from scratch");
        }
    }
    end();
}

static void append_refused(void) {
    static const uint64_t far_off[] = {UINT64_MAX, UINT64_MAX - 1, UINT64_MAX - 15, UINT64_MAX / 2,
                                       1u << 20};
    begin("appending: 1, 2, 4 with its place, then 3 for either buffer; an index that belongs to "
          "nothing");
    for (int t = 0; t < 20000; t++) {
        uint32_t m = (uint32_t)random_below(4), r = (uint32_t)random_below((int)m + 1), R = r,
                 M = m;
        cinorbis_size n = (cinorbis_size)1 << m, given_n = n, k = bytes_of((uint8_t)(16 * m + r)),
                      at = (cinorbis_size)random_below((int)n), room = 60, entries = 3;
        int16_t l[16] = {0};
        if (random_below(4) == 0)
            R = random_below(2) ? M + 1 : UINT32_MAX;
        else if (random_below(6) == 0)
            M = 9;
        if (random_below(4) == 0) given_n = n + 1;
        int bad = random_below(3) == 0;
        if (bad) l[at] = random_below(2) ? 2048 : -2048;
        cinorbis_index index = {(uint64_t)random_below(64), (uint64_t)random_below(70)}, before;
        if (random_below(4) == 0) index.used = far_off[random_below(5)];
        if (random_below(4) == 0) index.records = far_off[random_below(5)];
        before = index;
        scramble();
        keep();
        cinorbis_written w;
        memset(&w, 0xA5, sizeof w);
        int parameters = M > 8 || R > M, length = given_n != ((cinorbis_size)1 << (M > 8 ? 0 : M));
        int space = index.used > room || room - index.used < k;
        int no_entry = index.records == UINT64_MAX ||
                       (index.records % 16 == 0 && index.records / 16 >= entries);
        uint32_t e = parameters ? 1 : length ? 2 : bad ? 4 : space || no_entry ? 3 : 0;
        uint32_t given = cinorbis_index_append(R, M, l, given_n, capture + EDGE, room, table + EDGE,
                                               entries, &index, &w);
        CHECK(given == e, "%u, not %u", given, e);
        if (e) {
            CHECK(kept() && memcmp(&before, &index, sizeof index) == 0,
                  "written, and then refused %u", e);
            CHECK(w.next == 0 && w.place == (e == 4 ? at : 0), "numbers under %u", e);
        } else {
            CHECK(index.records == before.records + 1 && index.used == before.used + k &&
                      w.next == index.used,
                  "another index");
            only_appended(before, k);
        }
    }
    end();
}

int main(void) {
    whole_captures();
    refused();
    fronts();
    carried_on();
    foreign_tables();
    pads();
    appends();
    append_refused();
    return finish();
}
