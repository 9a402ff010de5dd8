/* Rod positions: every position of every m written, read, and read with every reading negated; with
 * noise against all words by their definition; every refusal of the writer and the reader, several
 * faults at once; and what a rod word says to the telegram's reader. A word is put together here by
 * counting common digits, or by the reference from its bits. */
#include "call.h"
#include "check.h"
#include "reference.h"

typedef struct {
    answer a;
    uint64_t position;
} heard;

/* the position holds arbitrary bytes before each call, so that one that is not written shows */
static heard rod_read(uint32_t m, const int16_t *l, size_t n_) {
    heard h;
    cinorbis_numbers n;
    memset(&h.position, 0x5A, sizeof h.position);
    memset(&n, 0xA5, sizeof n);
    uint32_t refusal = cinorbis_rod_read(m, l, n_, &h.position, &n);
    h.a = joined(refusal, n);
    return h;
}

static answer rod_write(uint32_t m, uint32_t position, uint8_t *word, size_t w) {
    CALL(cinorbis_rod_write, m, position, word, w);
}

/* bit j is 1 exactly if the position has an odd number of ones where j has zeros (§18) */
static void word_of(int m, unsigned position, uint8_t *x) {
    for (unsigned j = 0; j < 1u << m; j++) x[j] = (uint8_t)(ref_ones(position & ~j) % 2);
}

static void send(int n, const uint8_t *x, int size, int16_t *l) {
    for (int j = 0; j < n; j++) l[j] = (int16_t)(x[j] ? -size : size);
}

static void negate(int n, int16_t *l) {
    for (int j = 0; j < n; j++) l[j] = (int16_t)-l[j];
}

static void shows(heard h, uint32_t position, uint32_t penalty, uint32_t gap) {
    CHECK(h.a.refusal == 0 && h.position == position, "%u: %" PRIu64 ", not %u", h.a.refusal,
          h.position, position);
    CHECK(h.a.penalty == penalty && h.a.gap == gap && h.a.visits == 0 && h.a.place == 0,
          "penalty %u, gap %u, visits %u, place %u", h.a.penalty, h.a.gap, h.a.visits, h.a.place);
}

/* a refusal shows no position, and carries just these numbers */
static void shows_nothing(heard h, uint32_t refusal, uint32_t penalty, uint32_t place) {
    CHECK(h.a.refusal == refusal && h.a.penalty == penalty && h.a.gap == 0 && h.a.visits == 0 &&
              h.a.place == place,
          "refused %u (penalty %u, gap %u, visits %u, place %u), not %u", h.a.refusal, h.a.penalty,
          h.a.gap, h.a.visits, h.a.place, refusal);
    CHECK(h.position == 0, "shows %" PRIu64, h.position);
}

static void all_positions(int m) {
    static guarded g;
    int n = 1 << m;
    begin("all positions of m = %d", m);
    for (unsigned p = 0; p < 1u << m; p++) {
        uint8_t x[256], bits[9], by_bits[256];
        int16_t l[256];
        int size = random_between(1, LARGEST);
        arm(&g);
        answer a = rod_write((uint32_t)m, p, contents(&g), (size_t)n);
        word_of(m, p, x);
        for (int i = 0; i < m; i++) bits[i] = (uint8_t)(p >> (m - 1 - i) & 1);
        bits[m] = 0;
        ref_encode(1, m, bits, by_bits);
        CHECK(a.refusal == 0 && a.penalty == 0 && a.gap == 0 && a.visits == 0 && a.place == 0,
              "%u: %u", p, a.refusal);
        CHECK(only_first(&g, (size_t)n) && memcmp(contents(&g), x, (size_t)n) == 0 &&
                  memcmp(by_bits, x, (size_t)n) == 0,
              "%u: another word", p);
        CHECK(x[n - 1] == 0, "%u: the marker", p);
        send(n, contents(&g), size, l);
        /* the nearest other word differs in n / 2 places */
        shows(rod_read((uint32_t)m, l, (size_t)n), p, 0, (uint32_t)(size * (n / 2)));
        negate(n, l);
        shows_nothing(rod_read((uint32_t)m, l, (size_t)n), 13, 0, 0);
    }
    end();
}

/* the best of all words by their bits: its position and marker, and the two least penalties */
static unsigned brute(int m, const int16_t *l, uint32_t *marker, uint32_t *least, uint32_t *next) {
    unsigned best = 0;
    *least = *next = UINT32_MAX;
    for (unsigned name = 0; name < 2u << m; name++) {
        uint32_t p = 0;
        for (unsigned j = 0; j < 1u << m; j++) {
            int bit = (ref_ones(name >> 1 & ~j) + (int)(name & 1)) % 2;
            if ((l[j] > 0 && bit) || (l[j] < 0 && !bit)) p += (uint32_t)(l[j] < 0 ? -l[j] : l[j]);
        }
        if (p < *least)
            *next = *least, *least = p, best = name;
        else if (p < *next)
            *next = p;
    }
    *marker = best & 1;
    return best >> 1;
}

/* any readings against all words: what is shown, and on which polarity */
static void noisy(int m, int largest, int rounds) {
    int n = 1 << m, shown = 0, marked = 0, tied = 0;
    begin("m = %d, readings up to %d", m, largest);
    for (int t = 0; t < rounds; t++) {
        int16_t l[256];
        for (int j = 0; j < n; j++) l[j] = (int16_t)random_between(-largest, largest);
        for (int side = 0; side < 2; side++) {
            uint32_t marker, least, next;
            unsigned position = brute(m, l, &marker, &least, &next);
            heard h = rod_read((uint32_t)m, l, (size_t)n);
            if (least == next) {
                tied++;
                shows_nothing(h, 7, least, 0);
            } else if (marker) {
                marked++;
                shows_nothing(h, 13, 0, 0);
            } else {
                shown++;
                shows(h, position, least, next - least);
            }
            negate(n, l);
        }
    }
    /* one side of each pair is shown and the other gives 13, or both are tied */
    CHECK(shown == marked && shown > 0 && (largest > 1 || tied > 0), "%d, %d, %d", shown, marked,
          tied);
    end();
}

/* changes whose sizes add up to less than size * n / 2 */
static void corrected(int m) {
    int n = 1 << m;
    begin("noise that is corrected, m = %d", m);
    for (int t = 0; t < 100; t++) {
        uint8_t x[256];
        int16_t l[256];
        unsigned p = (unsigned)random_below(n);
        int size = random_between(1, 2000), left = size * (n / 2) - 1;
        word_of(m, p, x);
        send(n, x, size, l);
        while (left > 0) {
            int j = random_below(n), most = left < 3 * size ? left : 3 * size;
            int change = random_between(1, most);
            if (l[j] - change < -LARGEST || l[j] + change > LARGEST) break;
            l[j] = (int16_t)(x[j] ? l[j] + change : l[j] - change);
            left -= change;
        }
        heard h = rod_read((uint32_t)m, l, (size_t)n);
        CHECK(h.a.refusal == 0 && h.position == p, "%u: %" PRIu64 ", not %u", h.a.refusal,
              h.position, p);
        negate(n, l);
        shows_nothing(rod_read((uint32_t)m, l, (size_t)n), 13, 0, 0);
    }
    end();
}

static void writer_refuses(uint32_t m, uint32_t position, size_t length, uint32_t refusal) {
    static guarded g;
    arm(&g);
    answer a = rod_write(m, position, contents(&g), length);
    CHECK(a.refusal == refusal && a.penalty == 0 && a.gap == 0 && a.visits == 0 && a.place == 0,
          "m = %u, %u, %zu bytes: %u, not %u", m, position, length, a.refusal, refusal);
    CHECK(untouched(&g), "m = %u, %u: wrote", m, position);
}

static void refusals(void) {
    static const uint32_t no_m[] = {0, 9, 10, 32, 64, 256, UINT32_MAX};
    int16_t l[256] = {0};
    begin("refused as 1: the code");
    l[3] = INT16_MIN;
    for (size_t i = 0; i < sizeof no_m / sizeof *no_m; i++) {
        writer_refuses(no_m[i], UINT32_MAX, 7, 1);
        writer_refuses(no_m[i], 0, 1, 1);
        shows_nothing(rod_read(no_m[i], l, 7), 1, 0, 0);
        shows_nothing(rod_read(no_m[i], l, 1), 1, 0, 0);
    }
    end();
    begin("refused as 2 or 3: the length, then as 16: the position");
    for (uint32_t m = 1; m <= 8; m++)
        for (size_t n = 0; n <= 256; n++) {
            if (n != (size_t)1 << m) {
                writer_refuses(m, 0, n, 3);
                writer_refuses(m, UINT32_MAX, n, 3);
                shows_nothing(rod_read(m, l, n), 2, 0, 0);
                continue;
            }
            writer_refuses(m, (uint32_t)n, n, 16);
            writer_refuses(m, (uint32_t)n + 1, n, 16);
            writer_refuses(m, 1u << 31, n, 16);
            writer_refuses(m, UINT32_MAX, n, 16);
        }
    end();
    begin("refused as 4: the lowest entry that is no reading");
    for (int m = 1; m <= 8; m++)
        for (int j = (1 << m) - 1; j >= 0; j--) {
            for (int i = 0; i < 256; i++) l[i] = (int16_t)(i < j ? LARGEST : INT16_MIN);
            shows_nothing(rod_read((uint32_t)m, l, (size_t)1 << m), 4, 0, (uint32_t)j);
        }
    end();
    begin("refused as 7: zeros");
    memset(l, 0, sizeof l);
    for (uint32_t m = 1; m <= 8; m++) shows_nothing(rod_read(m, l, (size_t)1 << m), 7, 0, 0);
    end();
}

/* the examples of §17 and §18 */
static void examples(void) {
    static const uint8_t five[] = {0, 1, 0, 1, 1, 0, 1, 0};
    int16_t l[] = {5, -2, 3, 1};
    uint8_t x[8];
    begin("the examples of the rules");
    CHECK(rod_write(3, 5, x, 8).refusal == 0 && memcmp(x, five, 8) == 0, "m = 3, position 5");
    shows_nothing(rod_read(2, l, 4), 13, 0, 0);
    negate(4, l);
    shows(rod_read(2, l, 4), 1, 1, 1);
    end();
}

/* with m = 5 every rod word is also a telegram's: the digits of the position stand in its tilt */
static void as_telegrams(void) {
    begin("rod words of m = 5 as telegrams");
    for (unsigned p = 0; p < 32; p++) {
        uint8_t x[32];
        int16_t l[32];
        cinorbis_telegram t;
        cinorbis_numbers a;
        unsigned tilt = (p >> 4) * 1024 + (p >> 3 & 1) * 64 + (p >> 2 & 1) * 8 + (p & 3);
        CHECK(rod_write(5, p, x, 32).refusal == 0, "position %u", p);
        send(32, x, 100, l);
        CHECK(cinorbis_telegram_read(l, 32, &t, &a) == 0 && t.cylinder == 0 && t.direction == 0 &&
                  t.tilt == tilt && t.tilt <= 1099 && a.penalty == 0,
              "position %u: tilt %u, not %u", p, (unsigned)t.tilt, tilt);
    }
    end();
}

int main(void) {
    for (int m = 1; m <= 8; m++) {
        all_positions(m);
        noisy(m, LARGEST, m < 7 ? 200 : 40);
        noisy(m, 1, m < 7 ? 200 : 40);
        corrected(m);
    }
    refusals();
    examples();
    as_telegrams();
    return finish();
}
