/* Cinorbis as one file of C99: all calls of cinorbis.h. tools/c made it of the LLVM module of the
 * proved crates, the one that every archive of the library is compiled from (tools/checksum:
 * 51ec3f8107b3916c). It is not edited: change the crates and run tools/c.
 * c/README.md says how to compile it. It asks for memcpy and memset, and includes nothing that a
 * freestanding C does not have. A function is named after its crate. */
#if defined(__cplusplus) || !defined(__STDC_VERSION__) || __STDC_VERSION__ < 199901L
#error "cinorbis: this is C99: compile it as C, with -std=c99 or a later standard"
#endif
#include "cinorbis.h"
#include <float.h>
#include <limits.h>
#include <stdbool.h>
#include <stddef.h>
#include <stdint.h>

#if CINORBIS_VERSION != 17
#error "cinorbis: cinorbis.c is of version 17, and the cinorbis.h that was found is of another"
#endif
#if INT_MAX != 2147483647
#error "cinorbis: int has to have 32 bits"
#endif
#if defined(__FAST_MATH__) || defined(__FINITE_MATH_ONLY__) && __FINITE_MATH_ONLY__ > 0
#error "cinorbis: floats have to be added as it is written: compile without -ffast-math"
#endif
#if defined(FLT_EVAL_METHOD) &&                                                                    \
    (FLT_EVAL_METHOD < 0 || FLT_EVAL_METHOD == 1 || FLT_EVAL_METHOD == 2)
#error "cinorbis: floats have to be added as floats: on i386 compile with -msse2 -mfpmath=sse"
#endif

/* The loops over rows are for vectors, which gcc -O2 does not make of loops of any length: it is
 * asked for them there. -DCINORBIS_PLAIN leaves everything at the level of the command line. */
#if defined(__GNUC__) && !defined(__clang__) && defined(__OPTIMIZE__) &&                           \
    !defined(__OPTIMIZE_SIZE__) && !defined(CINORBIS_PLAIN) &&                                     \
    (defined(__SSE2__) || defined(__ARM_NEON))
#define VECTORS
#endif

/* A value of an enum is copied with the bytes that its case does not use, of which gcc warns. */
#if defined(__GNUC__) && !defined(__clang__)
#pragma GCC diagnostic ignored "-Wmaybe-uninitialized"
#endif

#if defined(__GNUC__)
#define copy __builtin_memcpy
#define fill __builtin_memset
#else
void *memcpy(void *restrict to, const void *restrict from, size_t n);
void *memset(void *at, int byte, size_t n);
#define copy memcpy
#define fill memset
#endif

/* what is proved never to be reached */
#if defined(__GNUC__)
#define stuck() __builtin_trap()
#define unreachable() __builtin_unreachable()
#else
#define stuck() for (;;)
#define unreachable() for (;;)
#endif

/* A number in memory, at a multiple of its size, whatever the memory was declared as. */
#if defined(__GNUC__)
#define GET(name, type)                                                                            \
    static inline type get_##name(const unsigned char *p) {                                        \
        typedef type __attribute__((__may_alias__)) any;                                           \
        return *(const any *)p;                                                                    \
    }
#define PUT(name, type)                                                                            \
    static inline void put_##name(unsigned char *p, type x) {                                      \
        typedef type __attribute__((__may_alias__)) any;                                           \
        *(any *)p = x;                                                                             \
    }
#else
#define GET(name, type)                                                                            \
    static inline type get_##name(const unsigned char *p) {                                        \
        type x;                                                                                    \
        copy(&x, p, sizeof x);                                                                     \
        return x;                                                                                  \
    }
#define PUT(name, type)                                                                            \
    static inline void put_##name(unsigned char *p, type x) { copy(p, &x, sizeof x); }
#endif

/* elements in memory: an address, and how many there are */
typedef struct {
    unsigned char *at;
    uint64_t n;
} slice;
typedef char slice_has_16_bytes[sizeof(slice) == 16 && offsetof(slice, n) == 8 ? 1 : -1];

typedef union {
    unsigned char b[2];
} bytes2_1;
typedef union {
    unsigned char b[8];
} bytes8_1;
typedef union {
    unsigned char b[8];
    uint32_t aligned;
} bytes8_4;
typedef union {
    unsigned char b[9];
} bytes9_1;
typedef union {
    unsigned char b[12];
    uint32_t aligned;
} bytes12_4;
typedef union {
    unsigned char b[16];
} bytes16_1;
typedef union {
    unsigned char b[16];
    uint64_t aligned;
} bytes16_8;
typedef union {
    unsigned char b[18];
    uint16_t aligned;
} bytes18_2;
typedef union {
    unsigned char b[24];
    uint64_t aligned;
} bytes24_8;
typedef union {
    unsigned char b[32];
} bytes32_1;
typedef union {
    unsigned char b[32];
    uint32_t aligned;
} bytes32_4;
typedef union {
    unsigned char b[32];
    uint64_t aligned;
} bytes32_8;
typedef union {
    unsigned char b[40];
    uint64_t aligned;
} bytes40_8;
typedef union {
    unsigned char b[256];
} bytes256_1;
typedef union {
    unsigned char b[280];
    uint64_t aligned;
} bytes280_8;
typedef union {
    unsigned char b[512];
    uint16_t aligned;
} bytes512_2;
typedef union {
    unsigned char b[1024];
    uint32_t aligned;
} bytes1024_4;

GET(i16, uint16_t)
PUT(i16, uint16_t)
GET(i32, uint32_t)
PUT(i32, uint32_t)
GET(i64, uint64_t)
PUT(i64, uint64_t)
GET(float, float)
PUT(float, float)

static inline slice slice_of(unsigned char *at, uint64_t n) {
    slice s;
    s.at = at;
    s.n = n;
    return s;
}

static inline void put_slice(unsigned char *p, slice s) {
    copy(p, &s, sizeof s);
}

/* the number with a sign that has these bits */
static inline int16_t signed16(uint16_t x) {
    int16_t y;
    copy(&y, &x, sizeof y);
    return y;
}

/* the number with a sign that has these bits */
static inline int32_t signed32(uint32_t x) {
    int32_t y;
    copy(&y, &x, sizeof y);
    return y;
}

/* how many ones */
static inline uint8_t ones8(uint8_t x) {
    x = (uint8_t)(x - (x >> 1 & 0x55));
    x = (uint8_t)((x & 0x33) + (x >> 2 & 0x33));
    return (uint8_t)((x + (x >> 4)) & 0x0f);
}

/* how many ones */
static inline uint32_t ones32(uint32_t x) {
    x = x - (x >> 1 & 0x55555555u);
    x = (x & 0x33333333u) + (x >> 2 & 0x33333333u);
    x = (x + (x >> 4)) & 0x0f0f0f0fu;
    return (x * 0x01010101u) >> 24;
}

/* how many ones */
static inline uint64_t ones64(uint64_t x) {
    x = x - (x >> 1 & UINT64_C(0x5555555555555555));
    x = (x & UINT64_C(0x3333333333333333)) + (x >> 2 & UINT64_C(0x3333333333333333));
    x = (x + (x >> 4)) & UINT64_C(0x0f0f0f0f0f0f0f0f);
    return (x * UINT64_C(0x0101010101010101)) >> 56;
}

/* how many zeros below the lowest one; 64 for 0 */
static inline uint64_t zeros_below64(uint64_t x) {
    return ones64(~x & (x - 1));
}

/* how many zeros above the highest one; 64 for 0 */
static inline uint64_t zeros_above64(uint64_t x) {
#if defined(__GNUC__)
    return x ? (uint64_t)__builtin_clzll(x) : 64;
#else
    uint64_t n = 64;
    for (; x; x >>= 1) n--;
    return n;
#endif
}

/* one of two values, both of which are made: no jump that a processor could guess wrong */
static inline uint8_t either_i8(bool first, uint8_t x, uint8_t y) {
    return (uint8_t)(y ^ ((x ^ y) & (0 - (unsigned)first)));
}

/* one of two values, both of which are made */
static inline uint32_t either_i32(bool first, uint32_t x, uint32_t y) {
    return y ^ ((x ^ y) & (0 - (uint32_t)first));
}

/* one of two values, both of which are made */
static inline float either_float(bool first, float x, float y) {
    uint32_t a, b;
    copy(&a, &x, sizeof a);
    copy(&b, &y, sizeof b);
    a = either_i32(first, a, b);
    copy(&x, &a, sizeof x);
    return x;
}

/* of two numbers with a sign */
static inline uint32_t greater_i32(uint32_t x, uint32_t y) {
    int32_t a = signed32(x), b = signed32(y);
    return (uint32_t)(a < b ? b : a);
}

/* of two numbers with a sign */
static inline uint32_t lesser_i32(uint32_t x, uint32_t y) {
    int32_t a = signed32(x), b = signed32(y);
    return (uint32_t)(a < b ? a : b);
}

/* A number as eight bytes, the lowest first, at any address: at once where that is one instruction,
 * since gcc -O3 takes the number apart and together again. */
static inline void put_eight(unsigned char *p, uint64_t x) {
#if defined(__GNUC__) && defined(__BYTE_ORDER__) && __BYTE_ORDER__ == __ORDER_LITTLE_ENDIAN__ &&   \
    (defined(__x86_64__) || defined(__aarch64__) || defined(__ARM_FEATURE_UNALIGNED))
    copy(p, &x, sizeof x);
#else
    p[0] = (uint8_t)(x & 255);
    p[1] = (uint8_t)(x >> 8 & 255);
    p[2] = (uint8_t)(x >> 16 & 255);
    p[3] = (uint8_t)(x >> 24 & 255);
    p[4] = (uint8_t)(x >> 32 & 255);
    p[5] = (uint8_t)(x >> 40 & 255);
    p[6] = (uint8_t)(x >> 48 & 255);
    p[7] = (uint8_t)(x >> 56 & 255);
#endif
}

static void quick_quick_row(slice, slice, slice, uint64_t);
static void quick_second_half(slice, slice, slice, uint64_t);
static void walk_info_step(unsigned char *, unsigned char *, unsigned char *, unsigned char *,
    unsigned char *, unsigned char *, unsigned char *, unsigned char *, uint64_t, uint32_t);
static bytes12_4 float_walk_info_step(unsigned char *, unsigned char *, unsigned char *,
    unsigned char *, unsigned char *, unsigned char *, unsigned char *, unsigned char *, bytes12_4,
    uint64_t, float);

#if defined(VECTORS)
#pragma GCC push_options
#pragma GCC optimize("O3")
#endif

/* code::beyond, crates/code/src/lib.rt. Whether a reading is beyond the largest, of either sign. */
static bool code_beyond(uint16_t reading, uint16_t largest) {
    if (signed16(reading) < signed16((uint16_t)(0 - largest))) {
        return true;
    }
    return signed16(largest) < signed16(reading);
}

/* code::dimensions, crates/code/src/lib.rt. The numbers k of information bits of RM(0,m),
 * RM(1,m), .. RM(8,m). A match, since a constant table would be built on the stack at each use. */
static bytes18_2 code_dimensions(uint32_t m) {
    bytes18_2 r1;
    switch (m) {
    case 0:
        put_i16(r1.b, 1);
        put_i16(r1.b + 2, 1);
        put_i16(r1.b + 4, 1);
        put_i16(r1.b + 6, 1);
        put_i16(r1.b + 8, 1);
        put_i16(r1.b + 10, 1);
        put_i16(r1.b + 12, 1);
        put_i16(r1.b + 14, 1);
        put_i16(r1.b + 16, 1);
        break;
    case 1:
        put_i16(r1.b, 1);
        put_i16(r1.b + 2, 2);
        put_i16(r1.b + 4, 2);
        put_i16(r1.b + 6, 2);
        put_i16(r1.b + 8, 2);
        put_i16(r1.b + 10, 2);
        put_i16(r1.b + 12, 2);
        put_i16(r1.b + 14, 2);
        put_i16(r1.b + 16, 2);
        break;
    case 2:
        put_i16(r1.b, 1);
        put_i16(r1.b + 2, 3);
        put_i16(r1.b + 4, 4);
        put_i16(r1.b + 6, 4);
        put_i16(r1.b + 8, 4);
        put_i16(r1.b + 10, 4);
        put_i16(r1.b + 12, 4);
        put_i16(r1.b + 14, 4);
        put_i16(r1.b + 16, 4);
        break;
    case 3:
        put_i16(r1.b, 1);
        put_i16(r1.b + 2, 4);
        put_i16(r1.b + 4, 7);
        put_i16(r1.b + 6, 8);
        put_i16(r1.b + 8, 8);
        put_i16(r1.b + 10, 8);
        put_i16(r1.b + 12, 8);
        put_i16(r1.b + 14, 8);
        put_i16(r1.b + 16, 8);
        break;
    case 4:
        put_i16(r1.b, 1);
        put_i16(r1.b + 2, 5);
        put_i16(r1.b + 4, 11);
        put_i16(r1.b + 6, 15);
        put_i16(r1.b + 8, 16);
        put_i16(r1.b + 10, 16);
        put_i16(r1.b + 12, 16);
        put_i16(r1.b + 14, 16);
        put_i16(r1.b + 16, 16);
        break;
    case 5:
        put_i16(r1.b, 1);
        put_i16(r1.b + 2, 6);
        put_i16(r1.b + 4, 16);
        put_i16(r1.b + 6, 26);
        put_i16(r1.b + 8, 31);
        put_i16(r1.b + 10, 32);
        put_i16(r1.b + 12, 32);
        put_i16(r1.b + 14, 32);
        put_i16(r1.b + 16, 32);
        break;
    case 6:
        put_i16(r1.b, 1);
        put_i16(r1.b + 2, 7);
        put_i16(r1.b + 4, 22);
        put_i16(r1.b + 6, 42);
        put_i16(r1.b + 8, 57);
        put_i16(r1.b + 10, 63);
        put_i16(r1.b + 12, 64);
        put_i16(r1.b + 14, 64);
        put_i16(r1.b + 16, 64);
        break;
    case 7:
        put_i16(r1.b, 1);
        put_i16(r1.b + 2, 8);
        put_i16(r1.b + 4, 29);
        put_i16(r1.b + 6, 64);
        put_i16(r1.b + 8, 99);
        put_i16(r1.b + 10, 120);
        put_i16(r1.b + 12, 127);
        put_i16(r1.b + 14, 128);
        put_i16(r1.b + 16, 128);
        break;
    default:
        put_i16(r1.b, 1);
        put_i16(r1.b + 2, 9);
        put_i16(r1.b + 4, 37);
        put_i16(r1.b + 6, 93);
        put_i16(r1.b + 8, 163);
        put_i16(r1.b + 10, 219);
        put_i16(r1.b + 12, 247);
        put_i16(r1.b + 14, 255);
        put_i16(r1.b + 16, 256);
        break;
    }
    return r1;
}

/* code::Code::dimension, crates/code/src/lib.rt. k, the number of information bits. */
static uint64_t code_Code_dimension(bytes8_4 self) {
    bytes18_2 row, r4;
    uint64_t r;
    r4 = code_dimensions(get_i32(self.b + 4));
    row = r4;
    r = (uint64_t)get_i32(self.b);
    return (uint64_t)get_i16(row.b + r * 2);
}

/* code::Code::kind, crates/code/src/lib.rt. 1 at an information index, 0 at a frozen one. An
 * index fits a byte, and the compiler counts the ones of many bytes at once. */
static uint8_t code_Code_kind(bytes8_4 self, uint64_t i) {
    return get_i32(self.b + 4) - get_i32(self.b) <= (uint32_t)ones8((uint8_t)i);
}

/* code::Code::length, crates/code/src/lib.rt. n, the number of positions. */
static uint64_t code_Code_length(bytes8_4 self) {
    return UINT64_C(1) << (uint64_t)get_i32(self.b + 4);
}

/* code::Code::new, crates/code/src/lib.rt */
static bytes12_4 code_Code_new(uint32_t r, uint32_t m) {
    bytes12_4 result;
    bytes8_4 r2;
    if (8 < m) {
        result.b[0] = 1;
        return result;
    }
    if (m < r) {
        result.b[0] = 1;
        return result;
    }
    put_i32(r2.b, r);
    put_i32(r2.b + 4, m);
    result.b[0] = 0;
    copy(result.b + 4, r2.b, 8);
    return result;
}

/* code::put_kinds, crates/code/src/lib.rt. Fills the row with the kinds of all indices. */
static void code_put_kinds(bytes8_4 code, slice row) {
    uint64_t i;
    i = 0;
    while (i < row.n) {
        row.at[i] = code_Code_kind(code, i);
        i = i + 1;
    }
}

/* code::Refusal::shown, crates/code/src/lib.rt. What the refusal reports, by the rules' table. */
static bytes24_8 code_Refusal_shown(bytes16_8 self) {
    bytes24_8 none, r8;
    uint32_t penalty, visits, visits2, r47, r49, r59, r61, r71, r73, r83, r85, r95, r97, r109,
        r131, r133, r143, r145, r155, r157, r167, r169, r179, r181;
    uint64_t place, place2, r45, r57, r69, r107, r121, r129, r141, r153, r165, r177;
    put_i32(none.b, 0);
    put_i64(none.b + 8, 0);
    put_i32(none.b + 16, 0);
    put_i32(none.b + 20, 0);
    switch (self.b[0]) {
    case 0:
        r45 = get_i64(none.b + 8);
        r47 = get_i32(none.b + 16);
        r49 = get_i32(none.b + 20);
        put_i32(r8.b, 1);
        put_i64(r8.b + 8, r45);
        put_i32(r8.b + 16, r47);
        put_i32(r8.b + 20, r49);
        break;
    case 1:
        r57 = get_i64(none.b + 8);
        r59 = get_i32(none.b + 16);
        r61 = get_i32(none.b + 20);
        put_i32(r8.b, 2);
        put_i64(r8.b + 8, r57);
        put_i32(r8.b + 16, r59);
        put_i32(r8.b + 20, r61);
        break;
    case 2:
        r69 = get_i64(none.b + 8);
        r71 = get_i32(none.b + 16);
        r73 = get_i32(none.b + 20);
        put_i32(r8.b, 3);
        put_i64(r8.b + 8, r69);
        put_i32(r8.b + 16, r71);
        put_i32(r8.b + 20, r73);
        break;
    case 3:
        place = get_i64(self.b + 8);
        r83 = get_i32(none.b + 16);
        r85 = get_i32(none.b + 20);
        put_i32(r8.b, 4);
        put_i64(r8.b + 8, place);
        put_i32(r8.b + 16, r83);
        put_i32(r8.b + 20, r85);
        break;
    case 4:
        place2 = get_i64(self.b + 8);
        r95 = get_i32(none.b + 16);
        r97 = get_i32(none.b + 20);
        put_i32(r8.b, 5);
        put_i64(r8.b + 8, place2);
        put_i32(r8.b + 16, r95);
        put_i32(r8.b + 20, r97);
        break;
    case 5:
        visits = get_i32(self.b + 4);
        r107 = get_i64(none.b + 8);
        r109 = get_i32(none.b + 16);
        put_i32(r8.b, 6);
        put_i64(r8.b + 8, r107);
        put_i32(r8.b + 16, r109);
        put_i32(r8.b + 20, visits);
        break;
    case 6:
        penalty = get_i32(self.b + 4);
        visits2 = get_i32(self.b + 8);
        r121 = get_i64(none.b + 8);
        put_i32(r8.b, 7);
        put_i64(r8.b + 8, r121);
        put_i32(r8.b + 16, penalty);
        put_i32(r8.b + 20, visits2);
        break;
    case 7:
        r129 = get_i64(none.b + 8);
        r131 = get_i32(none.b + 16);
        r133 = get_i32(none.b + 20);
        put_i32(r8.b, 8);
        put_i64(r8.b + 8, r129);
        put_i32(r8.b + 16, r131);
        put_i32(r8.b + 20, r133);
        break;
    case 8:
        r141 = get_i64(none.b + 8);
        r143 = get_i32(none.b + 16);
        r145 = get_i32(none.b + 20);
        put_i32(r8.b, 9);
        put_i64(r8.b + 8, r141);
        put_i32(r8.b + 16, r143);
        put_i32(r8.b + 20, r145);
        break;
    case 9:
        r153 = get_i64(none.b + 8);
        r155 = get_i32(none.b + 16);
        r157 = get_i32(none.b + 20);
        put_i32(r8.b, 10);
        put_i64(r8.b + 8, r153);
        put_i32(r8.b + 16, r155);
        put_i32(r8.b + 20, r157);
        break;
    case 10:
        r165 = get_i64(none.b + 8);
        r167 = get_i32(none.b + 16);
        r169 = get_i32(none.b + 20);
        put_i32(r8.b, 11);
        put_i64(r8.b + 8, r165);
        put_i32(r8.b + 16, r167);
        put_i32(r8.b + 20, r169);
        break;
    case 11:
        r177 = get_i64(none.b + 8);
        r179 = get_i32(none.b + 16);
        r181 = get_i32(none.b + 20);
        put_i32(r8.b, 12);
        put_i64(r8.b + 8, r177);
        put_i32(r8.b + 16, r179);
        put_i32(r8.b + 20, r181);
        break;
    default:
        unreachable();
    }
    return r8;
}

/* code::Refusal::number, crates/code/src/lib.rt */
static uint32_t code_Refusal_number(bytes16_8 self) {
    bytes24_8 shown;
    shown = code_Refusal_shown(self);
    return get_i32(shown.b);
}

/* code::Refusal::penalty, crates/code/src/lib.rt */
static uint32_t code_Refusal_penalty(bytes16_8 self) {
    bytes24_8 shown;
    shown = code_Refusal_shown(self);
    return get_i32(shown.b + 16);
}

/* code::Refusal::place, crates/code/src/lib.rt */
static uint64_t code_Refusal_place(bytes16_8 self) {
    bytes24_8 shown;
    shown = code_Refusal_shown(self);
    return get_i64(shown.b + 8);
}

/* code::some_bad_bit, crates/code/src/lib.rt. Whether some byte is above 1: without an early
 * end, so that many bytes are tested at once. */
static bool code_some_bad_bit(slice bits) {
    uint64_t i;
    uint8_t some;
    some = false;
    i = 0;
    while (i < bits.n) {
        some = (uint8_t)(some | (1 < bits.at[i]));
        i = i + 1;
    }
    return some;
}

/* code::first_bad_bit, crates/code/src/lib.rt. The lowest place of a byte above 1, or the length
 * if there is none. */
static uint64_t code_first_bad_bit(slice bits) {
    uint64_t i;
    if (!code_some_bad_bit(bits)) {
        return bits.n;
    }
    i = 0;
    while (i < bits.n) {
        if (1 < bits.at[i]) {
            return i;
        }
        i = i + 1;
    }
    return i;
}

/* code::some_beyond, crates/code/src/lib.rt. Whether some reading is beyond the largest. */
static bool code_some_beyond(slice readings, uint16_t largest) {
    uint64_t i;
    uint8_t some;
    some = false;
    i = 0;
    while (i < readings.n) {
        some = (uint8_t)(some | code_beyond(get_i16(readings.at + i * 2), largest));
        i = i + 1;
    }
    return some;
}

/* code::first_beyond, crates/code/src/lib.rt. The lowest place of a reading beyond the largest,
 * or the length if there is none. */
static uint64_t code_first_beyond(slice readings, uint16_t largest) {
    uint64_t i;
    if (!code_some_beyond(readings, largest)) {
        return readings.n;
    }
    i = 0;
    while (i < readings.n) {
        if (code_beyond(get_i16(readings.at + i * 2), largest)) {
            return i;
        }
        i = i + 1;
    }
    return i;
}

/* code::first_bad_reading, crates/code/src/lib.rt */
static uint64_t code_first_bad_reading(slice readings) {
    return code_first_beyond(readings, 32767);
}

/* code::admit_for, crates/code/src/lib.rt. The tests 2 to 4, with this number of information
 * bits expected. */
static bytes24_8 code_admit_for(bytes8_4 code, uint64_t expected, slice readings, uint64_t bits,
    uint64_t word) {
    bytes16_8 r7, r8, r9, r10;
    bytes24_8 result;
    uint64_t n, place;
    n = code_Code_length(code);
    if (readings.n != n) {
        r7.b[0] = 1;
        result.b[0] = 1;
        copy(result.b + 8, r7.b, 16);
        return result;
    }
    if (bits != expected) {
        r8.b[0] = 2;
        result.b[0] = 1;
        copy(result.b + 8, r8.b, 16);
        return result;
    }
    if (word != n) {
        r9.b[0] = 2;
        result.b[0] = 1;
        copy(result.b + 8, r9.b, 16);
        return result;
    }
    place = code_first_bad_reading(readings);
    if (place < n) {
        r10.b[0] = 3;
        put_i64(r10.b + 8, place);
        result.b[0] = 1;
        copy(result.b + 8, r10.b, 16);
        return result;
    }
    result.b[0] = 0;
    copy(result.b + 4, code.b, 8);
    return result;
}

/* code::admit, crates/code/src/lib.rt. The tests 1 to 4 in their order, for readings and lent
 * outputs of these lengths. */
static bytes24_8 code_admit(uint32_t r, uint32_t m, slice readings, uint64_t bits, uint64_t word) {
    bytes12_4 r3;
    bytes16_8 r4;
    bytes24_8 result;
    bytes8_4 code;
    r3 = code_Code_new(r, m);
    switch (r3.b[0]) {
    case 0:
        copy(code.b, r3.b + 4, 8);
        return code_admit_for(code, code_Code_dimension(code), readings, bits, word);
    case 1:
        r4.b[0] = 0;
        result.b[0] = 1;
        copy(result.b + 8, r4.b, 16);
        return result;
    default:
        unreachable();
    }
}

/* code::first_bad_record_reading, crates/code/src/lib.rt. The same for readings that are to go
 * into a record, or came out of one. */
static uint64_t code_first_bad_record_reading(slice readings) {
    return code_first_beyond(readings, 2047);
}

/* code::Refusal::visits, crates/code/src/lib.rt */
static uint32_t code_Refusal_visits(bytes16_8 self) {
    bytes24_8 shown;
    shown = code_Refusal_shown(self);
    return get_i32(shown.b + 20);
}

/* bit_rows::copy, crates/bit_rows/src/lib.rt */
static void bit_rows_copy(slice from, slice to) {
    uint64_t i;
    i = 0;
    while (i < from.n) {
        to.at[i] = from.at[i];
        i = i + 1;
    }
}

/* bit_rows::fill, crates/bit_rows/src/lib.rt. The row u: the bits in rising order at the
 * information indices, 0 at the frozen ones. */
static void bit_rows_fill(slice kinds, slice bits, slice row) {
    uint64_t i, used;
    i = 0;
    used = 0;
    while (i < kinds.n) {
        if (kinds.at[i] == 0) {
            row.at[i] = 0;
        } else {
            row.at[i] = bits.at[used];
            used = used + 1;
        }
        i = i + 1;
    }
}

/* bit_rows::fold_front, crates/bit_rows/src/lib.rt. Adds the second h bits of a word into its
 * first h, modulo 2; the word may be longer. */
static void bit_rows_fold_front(slice word, uint64_t h) {
    uint64_t j;
    j = 0;
    while (j < h) {
        word.at[j] = (uint8_t)((uint8_t)(word.at[j] + word.at[h + j]) % 2);
        j = j + 1;
    }
}

/* bit_rows::fold, crates/bit_rows/src/lib.rt. Adds the second half of a word of 2h bits into the
 * first, modulo 2. */
static void bit_rows_fold(slice word, uint64_t h) {
    bit_rows_fold_front(word, h);
}

/* bit_rows::fold_blocks, crates/bit_rows/src/lib.rt. Folds each whole block of 2h bits: the word
 * from the block's start on is lent to be folded. */
static void bit_rows_fold_blocks(slice word, uint64_t h) {
    uint64_t b, n, start;
    n = word.n;
    b = h + h;
    start = 0;
    while (b <= n - start) {
        bit_rows_fold_front(slice_of(word.at + start, word.n - start), h);
        start = start + b;
    }
}

/* bit_rows::layer, crates/bit_rows/src/lib.rt. One layer. The compiler unrolls the fold of a
 * block where its step is a constant; only words of fewer than eight bits have other steps. */
static void bit_rows_layer(slice word, uint64_t h) {
    switch (h) {
    case 8:
        bit_rows_fold_blocks(word, 8);
        break;
    case 16:
        bit_rows_fold_blocks(word, 16);
        break;
    case 32:
        bit_rows_fold_blocks(word, 32);
        break;
    case 64:
        bit_rows_fold_blocks(word, 64);
        break;
    case 128:
        bit_rows_fold_blocks(word, 128);
        break;
    default:
        bit_rows_fold_blocks(word, h);
        break;
    }
}

/* bit_rows::layers, crates/bit_rows/src/lib.rt. This many layers, of which the first has step
 * `first`; each step is twice the one before. */
static void bit_rows_layers(slice word, uint64_t first, uint64_t count) {
    uint64_t h, left;
    h = first;
    left = count;
    while (0 < left) {
        bit_rows_layer(word, h);
        h = h + h;
        left = left - 1;
    }
}

/* bit_rows::pick_each, crates/bit_rows/src/lib.rt. Copies what a row has at the information
 * indices to the front of bits, one by one; gives how many they are. */
static uint64_t bit_rows_pick_each(slice kinds, slice row, slice bits) {
    uint64_t i, taken;
    i = 0;
    taken = 0;
    while (i < kinds.n) {
        if (kinds.at[i] != 0) {
            bits.at[taken] = row.at[i];
            taken = taken + 1;
        }
        i = i + 1;
    }
    return taken;
}

/* bit_rows::put_eight, crates/bit_rows/src/lib.rt. Eight information indices in a row. All bits
 * are read before one is written, so that the compiler makes few loads and stores of them. */
static void bit_rows_put_eight(slice bits, slice row) {
    bytes8_1 r2;
    uint8_t r30, r34, r38, r42, r46, r50, r54;
    r30 = bits.at[1];
    r34 = bits.at[2];
    r38 = bits.at[3];
    r42 = bits.at[4];
    r46 = bits.at[5];
    r50 = bits.at[6];
    r54 = bits.at[7];
    r2.b[0] = *bits.at;
    r2.b[1] = r30;
    r2.b[2] = r34;
    r2.b[3] = r38;
    r2.b[4] = r42;
    r2.b[5] = r46;
    r2.b[6] = r50;
    r2.b[7] = r54;
    bit_rows_copy(slice_of(r2.b, 8), row);
}

/* bit_rows::put_four, crates/bit_rows/src/lib.rt. Eight indices of which those with two ones or
 * more carry information. */
static void bit_rows_put_four(slice bits, slice row) {
    bytes8_1 r2;
    uint8_t r18, r22, r26, r30;
    r18 = *bits.at;
    r22 = bits.at[1];
    r26 = bits.at[2];
    r30 = bits.at[3];
    r2.b[0] = 0;
    r2.b[1] = 0;
    r2.b[2] = 0;
    r2.b[3] = r18;
    r2.b[4] = 0;
    r2.b[5] = r22;
    r2.b[6] = r26;
    r2.b[7] = r30;
    bit_rows_copy(slice_of(r2.b, 8), row);
}

/* bit_rows::put_one, crates/bit_rows/src/lib.rt. Eight indices of which the last carries
 * information. */
static void bit_rows_put_one(slice bits, slice row) {
    bytes8_1 r2;
    uint8_t r12;
    r12 = *bits.at;
    r2.b[0] = 0;
    r2.b[1] = 0;
    r2.b[2] = 0;
    r2.b[3] = 0;
    r2.b[4] = 0;
    r2.b[5] = 0;
    r2.b[6] = 0;
    r2.b[7] = r12;
    bit_rows_copy(slice_of(r2.b, 8), row);
}

/* bit_rows::put_seven, crates/bit_rows/src/lib.rt. Eight indices of which all but the first
 * carry information. */
static void bit_rows_put_seven(slice bits, slice row) {
    bytes8_1 r2;
    uint8_t r24, r28, r32, r36, r40, r44, r48;
    r24 = *bits.at;
    r28 = bits.at[1];
    r32 = bits.at[2];
    r36 = bits.at[3];
    r40 = bits.at[4];
    r44 = bits.at[5];
    r48 = bits.at[6];
    r2.b[0] = 0;
    r2.b[1] = r24;
    r2.b[2] = r28;
    r2.b[3] = r32;
    r2.b[4] = r36;
    r2.b[5] = r40;
    r2.b[6] = r44;
    r2.b[7] = r48;
    bit_rows_copy(slice_of(r2.b, 8), row);
}

/* bit_rows::fill_eight, crates/bit_rows/src/lib.rt. Eight indices of which those with d ones or
 * more carry information; how many bits they take. */
static uint64_t bit_rows_fill_eight(uint32_t d, slice bits, slice row) {
    bytes8_1 r3;
    uint64_t r4;
    r3.b[0] = 0;
    r3.b[1] = 0;
    r3.b[2] = 0;
    r3.b[3] = 0;
    r3.b[4] = 0;
    r3.b[5] = 0;
    r3.b[6] = 0;
    r3.b[7] = 0;
    switch (d) {
    case 0:
        bit_rows_put_eight(bits, row);
        r4 = 8;
        break;
    case 1:
        bit_rows_put_seven(bits, row);
        r4 = 7;
        break;
    case 2:
        bit_rows_put_four(bits, row);
        r4 = 4;
        break;
    case 3:
        bit_rows_put_one(bits, row);
        r4 = 1;
        break;
    default:
        bit_rows_copy(slice_of(r3.b, 8), row);
        r4 = 0;
        break;
    }
    return r4;
}

/* bit_rows::some_frozen_one, crates/bit_rows/src/lib.rt. Whether the row is 1 at a frozen index:
 * without an early end, so that many are tested at once. */
static bool bit_rows_some_frozen_one(slice kinds, slice row) {
    uint64_t i;
    uint8_t some;
    some = false;
    i = 0;
    while (i < kinds.n) {
        some = (uint8_t)(some | ((kinds.at[i] == 0) & (row.at[i] != 0)));
        i = i + 1;
    }
    return some;
}

/* bit_rows::first_frozen_one, crates/bit_rows/src/lib.rt. The lowest frozen index where the row
 * is 1, or the row's length if there is none. */
static uint64_t bit_rows_first_frozen_one(slice kinds, slice row) {
    uint64_t i;
    if (!bit_rows_some_frozen_one(kinds, row)) {
        return kinds.n;
    }
    i = 0;
    while (i < kinds.n) {
        if (kinds.at[i] == 0) {
            if (row.at[i] != 0) {
                return i;
            }
        }
        i = i + 1;
    }
    return i;
}

/* bit_rows::still_needed, crates/bit_rows/src/lib.rt */
static uint32_t bit_rows_still_needed(uint32_t need, uint32_t ones) {
    return either_i32(need <= ones, 0, need - ones);
}

/* bit_rows::fill_code, crates/bit_rows/src/lib.rt. The row u of RM(r,m), eight indices at a
 * time: only the ones of a block's start are counted. */
static void bit_rows_fill_code(uint32_t r, uint32_t m, slice bits, slice row) {
    uint32_t d;
    uint64_t e, n, s, used;
    n = row.n;
    s = 0;
    used = 0;
    while (s < n) {
        d = bit_rows_still_needed(m - r, (uint32_t)ones64(s));
        e = s + 8;
        used = used + bit_rows_fill_eight(d, slice_of(bits.at + used, bits.n - used),
            slice_of(row.at + s, e - s));
        s = e;
    }
}

/* bit_rows::store, crates/bit_rows/src/lib.rt. Puts the eight bytes of a number in front. The
 * compiler makes one store of it. */
static void bit_rows_store(slice word, uint64_t x) {
    put_eight(word.at, x);
}

/* bit_rows::three_layers, crates/bit_rows/src/lib.rt. Eight bits, one in each byte of a number:
 * the first three layers, by bytes, pairs and fours. */
static uint64_t bit_rows_three_layers(uint64_t x) {
    uint64_t bytes, pairs;
    bytes = x ^ ((x >> 8) & UINT64_C(71777214294589695));
    pairs = bytes ^ ((bytes >> 16) & UINT64_C(281470681808895));
    return pairs ^ (pairs >> 32);
}

/* bit_rows::wide, crates/bit_rows/src/lib.rt */
static uint64_t bit_rows_wide(uint8_t x) {
    return (uint64_t)x;
}

/* bit_rows::load, crates/bit_rows/src/lib.rt. The first eight bytes as one number, the first
 * byte lowest. The compiler makes one load of bytes that are joined by `|`, and vector code of a
 * loop over such loads; it does not for their sum. */
static uint64_t bit_rows_load(slice word) {
    uint64_t r44, r55, r66, r77, r88, r99, r110;
    r44 = bit_rows_wide(*word.at);
    r55 = r44 | (bit_rows_wide(word.at[1]) << 8);
    r66 = r55 | (bit_rows_wide(word.at[2]) << 16);
    r77 = r66 | (bit_rows_wide(word.at[3]) << 24);
    r88 = r77 | (bit_rows_wide(word.at[4]) << 32);
    r99 = r88 | (bit_rows_wide(word.at[5]) << 40);
    r110 = r99 | (bit_rows_wide(word.at[6]) << 48);
    return r110 | (bit_rows_wide(word.at[7]) << 56);
}

/* bit_rows::eight, crates/bit_rows/src/lib.rt. The transform of the first eight bits of a word. */
static void bit_rows_eight(slice word) {
    uint64_t x;
    x = bit_rows_load(word);
    bit_rows_store(word, bit_rows_three_layers(x));
}

/* bit_rows::eights, crates/bit_rows/src/lib.rt. The transform of each block of eight bits. */
static void bit_rows_eights(slice word) {
    uint64_t at, n;
    n = word.n;
    at = 0;
    while (8 <= n - at) {
        bit_rows_eight(slice_of(word.at + at, word.n - at));
        at = at + 8;
    }
}

/* bit_rows::pick_eight, crates/bit_rows/src/lib.rt. The same for the first eight kinds. The five
 * rows of eight that codes are made of are constants here, and the compiler leaves neither loop
 * nor tests of them; any other eight keep both. */
static uint64_t bit_rows_pick_eight(slice kinds, slice row, slice bits) {
    bytes8_1 r4, r5, r6, r7, r8;
    uint64_t r10;
    r4.b[0] = 1;
    r4.b[1] = 1;
    r4.b[2] = 1;
    r4.b[3] = 1;
    r4.b[4] = 1;
    r4.b[5] = 1;
    r4.b[6] = 1;
    r4.b[7] = 1;
    r5.b[0] = 0;
    r5.b[1] = 1;
    r5.b[2] = 1;
    r5.b[3] = 1;
    r5.b[4] = 1;
    r5.b[5] = 1;
    r5.b[6] = 1;
    r5.b[7] = 1;
    r6.b[0] = 0;
    r6.b[1] = 0;
    r6.b[2] = 0;
    r6.b[3] = 1;
    r6.b[4] = 0;
    r6.b[5] = 1;
    r6.b[6] = 1;
    r6.b[7] = 1;
    r7.b[0] = 0;
    r7.b[1] = 0;
    r7.b[2] = 0;
    r7.b[3] = 0;
    r7.b[4] = 0;
    r7.b[5] = 0;
    r7.b[6] = 0;
    r7.b[7] = 1;
    r8.b[0] = 0;
    r8.b[1] = 0;
    r8.b[2] = 0;
    r8.b[3] = 0;
    r8.b[4] = 0;
    r8.b[5] = 0;
    r8.b[6] = 0;
    r8.b[7] = 0;
    switch (bit_rows_load(kinds)) {
    case 72340172838076673:
        r10 = bit_rows_pick_each(slice_of(r4.b, 8), row, bits);
        break;
    case 72340172838076672:
        r10 = bit_rows_pick_each(slice_of(r5.b, 8), row, bits);
        break;
    case 72340168543043584:
        r10 = bit_rows_pick_each(slice_of(r6.b, 8), row, bits);
        break;
    case 72057594037927936:
        r10 = bit_rows_pick_each(slice_of(r7.b, 8), row, bits);
        break;
    case 0:
        r10 = bit_rows_pick_each(slice_of(r8.b, 8), row, bits);
        break;
    default:
        r10 = bit_rows_pick_each(slice_of(kinds.at, UINT64_C(8)), row, bits);
        break;
    }
    return r10;
}

/* bit_rows::pick, crates/bit_rows/src/lib.rt. The bits of a row at the information indices,
 * eight indices at a time. */
static void bit_rows_pick(slice kinds, slice row, slice bits) {
    uint64_t at, n, taken;
    n = kinds.n;
    at = 0;
    taken = 0;
    while (8 <= n - at) {
        taken = taken + bit_rows_pick_eight(slice_of(kinds.at + at, kinds.n - at),
            slice_of(row.at + at, row.n - at), slice_of(bits.at + taken, bits.n - taken));
        at = at + 8;
    }
    (void)bit_rows_pick_each(slice_of(kinds.at + at, kinds.n - at), slice_of(row.at + at, row.n
        - at), slice_of(bits.at + taken, bits.n - taken));
}

/* bit_rows::put_sixteen, crates/bit_rows/src/lib.rt. The transform of the first sixteen bits of
 * a word, put in front of a row: eight bits in each of two numbers, and the fourth layer between
 * them. */
static void bit_rows_put_sixteen(slice word, slice row) {
    uint64_t x, y;
    x = bit_rows_three_layers(bit_rows_load(word));
    y = bit_rows_three_layers(bit_rows_load(slice_of(word.at + 8, word.n - 8)));
    bit_rows_store(row, x ^ y);
    bit_rows_store(slice_of(row.at + 8, row.n - 8), y);
}

/* bit_rows::put_sixteens, crates/bit_rows/src/lib.rt. The transform of each block of sixteen
 * bits of a word. */
static void bit_rows_put_sixteens(slice word, slice row) {
    uint64_t at, n;
    n = word.n;
    at = 0;
    while (16 <= n - at) {
        bit_rows_put_sixteen(slice_of(word.at + at, word.n - at), slice_of(row.at + at, row.n
            - at));
        at = at + 16;
    }
}

/* bit_rows::transform, crates/bit_rows/src/lib.rt. The transform of 2^m bits, in place, layer by
 * layer; from eight bits on the first three layers are made at once. */
static void bit_rows_transform(slice word, uint64_t m) {
    if (m < 3) {
        bit_rows_layers(word, 1, m);
        return;
    }
    bit_rows_eights(word);
    bit_rows_layers(word, 8, m - 3);
}

/* bit_rows::put_row, crates/bit_rows/src/lib.rt. The row u that a word comes from: the transform
 * is its own inverse. From sixteen bits on the first four layers are made at once, with no copy
 * of the word before them. */
static void bit_rows_put_row(slice word, slice row, uint64_t m) {
    if (m < 3) {
        bit_rows_copy(word, row);
        bit_rows_transform(row, m);
        return;
    }
    if (m == 3) {
        bit_rows_store(row, bit_rows_three_layers(bit_rows_load(word)));
        return;
    }
    bit_rows_put_sixteens(word, row);
    bit_rows_layers(row, 16, m - 4);
}

/* bit_rows::take_bits, crates/bit_rows/src/lib.rt. The information bits of a word of at most 256
 * bits. */
static void bit_rows_take_bits(slice kinds, slice word, slice bits, uint64_t m) {
    bytes256_1 row;
    uint64_t n;
    fill(row.b, 0, 256);
    n = word.n;
    bit_rows_put_row(word, slice_of(row.b, n), m);
    bit_rows_pick(kinds, slice_of(row.b, n), bits);
}

/* encode::put_row, crates/encode/src/lib.rt. The row u of the information bits. The few kinds of
 * a short row are written out for it. */
static void encode_put_row(bytes8_4 code, slice bits, slice row) {
    bytes8_1 kinds;
    uint64_t n;
    if (3 <= get_i32(code.b + 4)) {
        bit_rows_fill_code(get_i32(code.b), get_i32(code.b + 4), bits, row);
        return;
    }
    fill(kinds.b, 0, 8);
    n = code_Code_length(code);
    code_put_kinds(code, slice_of(kinds.b, n));
    bit_rows_fill(slice_of(kinds.b, n), bits, row);
}

/* encode::put_word, crates/encode/src/lib.rt. The row u goes into the buffer, whatever it held,
 * and is transformed there. */
static void encode_put_word(bytes8_4 code, slice bits, slice word) {
    encode_put_row(code, bits, word);
    bit_rows_transform(word, (uint64_t)get_i32(code.b + 4));
}

/* encode::encode, crates/encode/src/lib.rt. Writes the word of the information bits into the
 * lent buffer. */
static bytes24_8 encode_encode(uint32_t r, uint32_t m, slice bits, slice word) {
    bytes12_4 r5;
    bytes16_8 r6, r10, r11, r12;
    bytes24_8 result;
    bytes8_4 code;
    uint64_t place;
    r5 = code_Code_new(r, m);
    switch (r5.b[0]) {
    case 0:
        copy(code.b, r5.b + 4, 8);
        if (bits.n != code_Code_dimension(code)) {
            r10.b[0] = 1;
            result.b[0] = 1;
            copy(result.b + 8, r10.b, 16);
            return result;
        }
        if (word.n != code_Code_length(code)) {
            r11.b[0] = 2;
            result.b[0] = 1;
            copy(result.b + 8, r11.b, 16);
            return result;
        }
        place = code_first_bad_bit(bits);
        if (place < bits.n) {
            r12.b[0] = 3;
            put_i64(r12.b + 8, place);
            result.b[0] = 1;
            copy(result.b + 8, r12.b, 16);
            return result;
        }
        encode_put_word(code, bits, word);
        result.b[0] = 0;
        return result;
    case 1:
        r6.b[0] = 0;
        result.b[0] = 1;
        copy(result.b + 8, r6.b, 16);
        return result;
    default:
        unreachable();
    }
}

/* encode::take_row, crates/encode/src/lib.rt. Nothing is written before every frozen index has
 * been found to be 0. */
static bytes24_8 encode_take_row(slice kinds, slice row, slice bits) {
    bytes16_8 r7;
    bytes24_8 result;
    uint64_t index;
    index = bit_rows_first_frozen_one(kinds, row);
    if (index < kinds.n) {
        r7.b[0] = 4;
        put_i64(r7.b + 8, index);
        result.b[0] = 1;
        copy(result.b + 8, r7.b, 16);
        return result;
    }
    bit_rows_pick(kinds, row, bits);
    result.b[0] = 0;
    return result;
}

/* encode::take_back, crates/encode/src/lib.rt */
static bytes24_8 encode_take_back(bytes8_4 code, slice word, slice bits) {
    bytes256_1 kinds, row;
    uint64_t n;
    fill(kinds.b, 0, 256);
    fill(row.b, 0, 256);
    n = code_Code_length(code);
    code_put_kinds(code, slice_of(kinds.b, n));
    bit_rows_put_row(word, slice_of(row.b, n), (uint64_t)get_i32(code.b + 4));
    return encode_take_row(slice_of(kinds.b, n), slice_of(row.b, n), bits);
}

/* encode::inverse, crates/encode/src/lib.rt. Writes the information bits of the word into the
 * lent buffer. */
static bytes24_8 encode_inverse(uint32_t r, uint32_t m, slice word, slice bits) {
    bytes12_4 r5;
    bytes16_8 r6, r10, r11, r12;
    bytes24_8 result;
    bytes8_4 code;
    uint64_t place;
    r5 = code_Code_new(r, m);
    switch (r5.b[0]) {
    case 0:
        copy(code.b, r5.b + 4, 8);
        if (word.n != code_Code_length(code)) {
            r10.b[0] = 1;
            result.b[0] = 1;
            copy(result.b + 8, r10.b, 16);
            return result;
        }
        if (bits.n != code_Code_dimension(code)) {
            r11.b[0] = 2;
            result.b[0] = 1;
            copy(result.b + 8, r11.b, 16);
            return result;
        }
        place = code_first_bad_bit(word);
        if (place < word.n) {
            r12.b[0] = 3;
            put_i64(r12.b + 8, place);
            result.b[0] = 1;
            copy(result.b + 8, r12.b, 16);
            return result;
        }
        return encode_take_back(code, word, bits);
    case 1:
        r6.b[0] = 0;
        result.b[0] = 1;
        copy(result.b + 8, r6.b, 16);
        return result;
    default:
        unreachable();
    }
}

#if defined(VECTORS)
#pragma GCC pop_options
#endif

/* float_code::is_reading, crates/float_code/src/lib.rt. Whether x is a whole number no larger
 * than the largest reading, of either sign. Minus zero is one; a NaN, an infinity and a fraction
 * are none. */
static bool float_code_is_reading(float x) {
    if (x < -32767.0f) {
        return false;
    }
    if (32767.0f < x) {
        return false;
    }
    return x + 12582912.0f - 12582912.0f == x;
}

/* float_code::first_bad_reading, crates/float_code/src/lib.rt. The lowest place of a float that
 * is not a reading, or the length if there is none. */
static uint64_t float_code_first_bad_reading(slice readings) {
    uint64_t i;
    i = 0;
    while (i < readings.n) {
        if (!float_code_is_reading(get_float(readings.at + i * 4))) {
            return i;
        }
        i = i + 1;
    }
    return i;
}

/* float_code::admit, crates/float_code/src/lib.rt. The tests 1 to 4 in their order, for readings
 * and lent outputs of these lengths. */
static bytes24_8 float_code_admit(uint32_t r, uint32_t m, slice readings, uint64_t bits,
    uint64_t word) {
    bytes12_4 r5;
    bytes16_8 r6, r9, r10, r11, r12;
    bytes24_8 result;
    bytes8_4 code;
    uint64_t n, place;
    r5 = code_Code_new(r, m);
    switch (r5.b[0]) {
    case 0:
        copy(code.b, r5.b + 4, 8);
        n = code_Code_length(code);
        if (readings.n != n) {
            r9.b[0] = 1;
            result.b[0] = 1;
            copy(result.b + 8, r9.b, 16);
            return result;
        }
        if (bits != code_Code_dimension(code)) {
            r10.b[0] = 2;
            result.b[0] = 1;
            copy(result.b + 8, r10.b, 16);
            return result;
        }
        if (word != n) {
            r11.b[0] = 2;
            result.b[0] = 1;
            copy(result.b + 8, r11.b, 16);
            return result;
        }
        place = float_code_first_bad_reading(readings);
        if (place < n) {
            r12.b[0] = 3;
            put_i64(r12.b + 8, place);
            result.b[0] = 1;
            copy(result.b + 8, r12.b, 16);
            return result;
        }
        result.b[0] = 0;
        copy(result.b + 4, code.b, 8);
        return result;
    case 1:
        r6.b[0] = 0;
        result.b[0] = 1;
        copy(result.b + 8, r6.b, 16);
        return result;
    default:
        unreachable();
    }
}

/* images::add_column, crates/images/src/lib.rt. The first h images repeated, with a column
 * added: those of the positions h further on. */
static void images_add_column(slice images, uint64_t h, uint8_t column) {
    uint64_t i;
    i = 0;
    while (i < h) {
        images.at[h + i] = (uint8_t)(images.at[i] ^ column);
        i = i + 1;
    }
}

/* images::all_apart, crates/images/src/lib.rt. Whether no two positions have the same image. */
static bool images_all_apart(uint64_t n, slice images, slice places) {
    uint64_t image, j;
    j = 0;
    while (j < n) {
        image = (uint64_t)images.at[j];
        if ((uint64_t)places.at[image] != j) {
            return false;
        }
        j = j + 1;
    }
    return true;
}

/* images::column, crates/images/src/lib.rt. The number whose bit p is the entry at row p and
 * column q of a table of m rows. */
static uint8_t images_column(slice table, uint64_t width, uint64_t q, uint64_t m) {
    uint64_t p;
    uint8_t x;
    x = 0;
    p = 0;
    while (p < m) {
        x = (uint8_t)(x + (uint8_t)((uint32_t)table.at[p * width + q] << (uint8_t)p));
        p = p + 1;
    }
    return x;
}

/* images::move_bits, crates/images/src/lib.rt */
static void images_move_bits(slice images, uint8_t x, slice from, slice to) {
    uint64_t image, j;
    j = 0;
    while (j < to.n) {
        image = (uint64_t)(uint8_t)(images.at[j] ^ x);
        to.at[j] = from.at[image];
        j = j + 1;
    }
}

/* images::move_readings, crates/images/src/lib.rt. Position j gets the entry at its image, with
 * x added. */
static void images_move_readings(slice images, uint8_t x, slice from, slice to) {
    uint64_t image, j;
    j = 0;
    while (j < to.n) {
        image = (uint64_t)(uint8_t)(images.at[j] ^ x);
        put_i16(to.at + j * 2, get_i16(from.at + image * 2));
        j = j + 1;
    }
}

/* images::product_columns, crates/images/src/lib.rt. The columns of a product: the images of the
 * second table's. */
static void images_product_columns(uint64_t m, slice images, slice table, slice columns) {
    uint64_t q;
    q = 0;
    while (q < m) {
        columns.at[q] = images.at[(uint64_t)images_column(table, m, q, m)];
        q = q + 1;
    }
}

/* images::put_images, crates/images/src/lib.rt. The images of all positions under the table
 * without the row. */
static void images_put_images(uint64_t m, slice table, slice images) {
    uint64_t q;
    *images.at = 0;
    q = 0;
    while (q < m) {
        images_add_column(images, UINT64_C(1) << q, images_column(table, m, q, m));
        q = q + 1;
    }
}

/* images::put_places, crates/images/src/lib.rt. The position that has each image; the highest
 * where several have it. */
static void images_put_places(uint64_t n, slice images, slice places) {
    uint64_t image, j;
    j = 0;
    while (j < n) {
        image = (uint64_t)images.at[j];
        places.at[image] = (uint8_t)j;
        j = j + 1;
    }
}

/* images::spread, crates/images/src/lib.rt. Fills a table with its columns: bit p of column q
 * goes to row p. */
static void images_spread(slice columns, uint64_t width, slice table) {
    uint64_t i, r19, r28;
    uint8_t column;
    i = 0;
    while (i < table.n) {
        r19 = i;
        if (width == 0) {
            stuck();
        }
        column = columns.at[r19 % width];
        r28 = i;
        if (width == 0) {
            stuck();
        }
        table.at[i] = (uint8_t)((uint8_t)(column >> (uint8_t)(r28 / width)) % 2);
        i = i + 1;
    }
}

/* images::put_product, crates/images/src/lib.rt. The product of two maps, by the images of the
 * first without its row, x, and the second. */
static void images_put_product(uint64_t m, slice images, uint8_t x, slice table, slice row,
    slice out, slice outrow) {
    bytes8_1 columns;
    fill(columns.b, 0, 8);
    images_product_columns(m, images, table, slice_of(columns.b, 8));
    images_spread(slice_of(columns.b, 8), m, out);
    columns.b[0] = (uint8_t)(images.at[(uint64_t)images_column(row, 1, 0, m)] ^ x);
    images_spread(slice_of(columns.b, 8), 1, outrow);
}

/* images::take_map, crates/images/src/lib.rt. Whether this is a map that can be undone; then its
 * images without the row, and their places. */
static bool images_take_map(uint64_t m, slice table, slice row, slice images, slice places) {
    uint64_t n;
    if (code_first_bad_bit(table) < table.n) {
        return false;
    }
    if (code_first_bad_bit(row) < row.n) {
        return false;
    }
    n = UINT64_C(1) << m;
    images_put_images(m, table, images);
    images_put_places(n, images, places);
    return images_all_apart(n, images, places);
}

/* images::is_map, crates/images/src/lib.rt. The same if the places are not needed. */
static bool images_is_map(uint64_t m, slice table, slice row, slice images) {
    bytes256_1 places;
    fill(places.b, 0, 256);
    return images_take_map(m, table, row, images, slice_of(places.b, 256));
}

/* images::undo_columns, crates/images/src/lib.rt. The columns of the undo table: the positions
 * whose images are the powers of 2. */
static void images_undo_columns(uint64_t m, slice places, slice columns) {
    uint64_t q;
    q = 0;
    while (q < m) {
        columns.at[q] = places.at[UINT64_C(1) << q];
        q = q + 1;
    }
}

/* images::put_undo, crates/images/src/lib.rt. The undo map, by the places: its row is the
 * position whose image is the row. */
static void images_put_undo(uint64_t m, slice places, slice row, slice out, slice outrow) {
    bytes8_1 columns;
    fill(columns.b, 0, 8);
    images_undo_columns(m, places, slice_of(columns.b, 8));
    images_spread(slice_of(columns.b, 8), m, out);
    columns.b[0] = places.at[(uint64_t)images_column(row, 1, 0, m)];
    images_spread(slice_of(columns.b, 8), 1, outrow);
}

/* named::kind_left, crates/named/src/lib.rt. A named index is frozen too. */
static uint8_t named_kind_left(uint8_t named, uint8_t kind) {
    return either_i8(named == 0, kind, 0);
}

/* named::named_frozen, crates/named/src/lib.rt */
static bool named_named_frozen(uint8_t named, uint8_t kind) {
    if (named == 0) {
        return false;
    }
    return kind == 0;
}

/* named::names_frozen, crates/named/src/lib.rt. Whether the row names a frozen index. */
static bool named_names_frozen(bytes8_4 code, slice named) {
    uint64_t i;
    uint8_t r22;
    i = 0;
    while (i < named.n) {
        r22 = named.at[i];
        if (named_named_frozen(r22, code_Code_kind(code, i))) {
            return true;
        }
        i = i + 1;
    }
    return false;
}

/* named::put_left, crates/named/src/lib.rt. The kinds that the row leaves. */
static void named_put_left(bytes8_4 code, slice named, slice row) {
    uint64_t i;
    uint8_t r23;
    i = 0;
    while (i < row.n) {
        r23 = named.at[i];
        row.at[i] = named_kind_left(r23, code_Code_kind(code, i));
        i = i + 1;
    }
}

/* named::wide, crates/named/src/lib.rt */
static uint64_t named_wide(uint8_t kind) {
    return (uint64_t)kind;
}

/* named::count_left, crates/named/src/lib.rt. How many information indices the row leaves. */
static uint64_t named_count_left(bytes8_4 code, slice named) {
    uint64_t count, i;
    uint8_t r23;
    count = 0;
    i = 0;
    while (i < named.n) {
        r23 = named.at[i];
        count = count + named_wide(named_kind_left(r23, code_Code_kind(code, i)));
        i = i + 1;
    }
    return count;
}

/* named::good_row, crates/named/src/lib.rt. Whether the row has n bytes, all 0 or 1, names
 * information indices only, and leaves at least one. */
static bool named_good_row(bytes8_4 code, slice named) {
    if (named.n != code_Code_length(code)) {
        return false;
    }
    if (code_first_bad_bit(named) < named.n) {
        return false;
    }
    if (named_names_frozen(code, named)) {
        return false;
    }
    return 0 < named_count_left(code, named);
}

/* named::admit_row, crates/named/src/lib.rt. The tests 1 and 12. */
static bytes24_8 named_admit_row(uint32_t r, uint32_t m, slice named) {
    bytes12_4 r3;
    bytes16_8 r4, r7;
    bytes24_8 result;
    bytes8_4 code;
    r3 = code_Code_new(r, m);
    switch (r3.b[0]) {
    case 0:
        copy(code.b, r3.b + 4, 8);
        if (!named_good_row(code, named)) {
            r7.b[0] = 11;
            result.b[0] = 1;
            copy(result.b + 8, r7.b, 16);
            return result;
        }
        result.b[0] = 0;
        copy(result.b + 4, code.b, 8);
        return result;
    case 1:
        r4.b[0] = 0;
        result.b[0] = 1;
        copy(result.b + 8, r4.b, 16);
        return result;
    default:
        unreachable();
    }
}

/* packing::field_of, crates/packing/src/lib.rt. A reading as a field of 12 bits: two's
 * complement. */
static uint16_t packing_field_of(uint16_t reading) {
    return (uint16_t)((uint16_t)(reading + 4096) % 4096);
}

/* packing::part_length, crates/packing/src/lib.rt. What unpacking answers: the readings are
 * there, or why not. How many bytes follow a record's first. */
static uint64_t packing_part_length(bytes8_4 code) {
    return (3 * code_Code_length(code) + 1) / 2;
}

/* packing::put_packed_pairs, crates/packing/src/lib.rt. Three bytes of two readings per pass; a
 * last single reading is left. */
static void packing_put_packed_pairs(slice readings, slice part) {
    uint16_t a, b;
    uint64_t j, pairs;
    pairs = readings.n / 2;
    j = 0;
    while (j < pairs) {
        a = packing_field_of(get_i16(readings.at + (2 * j) * 2));
        b = packing_field_of(get_i16(readings.at + (2 * j + 1) * 2));
        part.at[3 * j] = (uint8_t)(uint16_t)(a / 16);
        part.at[3 * j + 1] = (uint8_t)(uint16_t)((uint16_t)((uint32_t)16 * (uint16_t)(a % 16))
            + (uint16_t)(b / 256));
        part.at[3 * j + 2] = (uint8_t)(uint16_t)(b % 256);
        j = j + 1;
    }
}

/* packing::put_packed, crates/packing/src/lib.rt. The packed part of readings. */
static void packing_put_packed(slice readings, slice part) {
    uint16_t a;
    uint64_t j, n;
    n = readings.n;
    packing_put_packed_pairs(readings, part);
    if (n % 2 == 1) {
        j = n / 2;
        a = packing_field_of(get_i16(readings.at + (2 * j) * 2));
        part.at[3 * j] = (uint8_t)(uint16_t)(a / 16);
        part.at[3 * j + 1] = (uint8_t)(uint16_t)((uint32_t)16 * (uint16_t)(a % 16));
    }
}

/* packing::reading_of, crates/packing/src/lib.rt. The reading in a field of 12 bits: two's
 * complement, except for the bottom rail. */
static uint16_t packing_reading_of(uint16_t field) {
    if (field == 2048) {
        return 63489;
    }
    if (field < 2048) {
        return field;
    }
    return (uint16_t)(field - 4096);
}

/* packing::readings_in, crates/packing/src/lib.rt. How many readings a packed part of this many
 * bytes holds; 0 if no record has such a part. */
static uint64_t packing_readings_in(uint64_t bytes) {
    bytes8_4 code;
    uint32_t m;
    m = 8u + 1;
    while (0 < m) {
        m = m - 1;
        put_i32(code.b, 0);
        put_i32(code.b + 4, m);
        if (bytes == packing_part_length(code)) {
            return code_Code_length(code);
        }
    }
    return 0;
}

/* packing::wide, crates/packing/src/lib.rt */
static uint16_t packing_wide(uint8_t x) {
    return (uint16_t)x;
}

/* packing::put_reading_pairs, crates/packing/src/lib.rt. Two readings from three bytes per pass;
 * a last single one stays as it is. */
static void packing_put_reading_pairs(slice part, slice readings) {
    uint16_t a, b, c;
    uint64_t j, pairs;
    pairs = readings.n / 2;
    j = 0;
    while (j < pairs) {
        a = packing_wide(part.at[3 * j]);
        b = packing_wide(part.at[3 * j + 1]);
        c = packing_wide(part.at[3 * j + 2]);
        put_i16(readings.at + (2 * j) * 2, packing_reading_of((uint16_t)((uint16_t)((uint32_t)16
            * a) + (uint16_t)(b / 16))));
        put_i16(readings.at + (2 * j + 1) * 2,
            packing_reading_of((uint16_t)((uint16_t)((uint32_t)256 * (uint16_t)(b % 16)) + c)));
        j = j + 1;
    }
}

/* packing::put_readings, crates/packing/src/lib.rt. The readings of a packed part. */
static void packing_put_readings(slice part, slice readings) {
    uint16_t r50;
    uint64_t j, n;
    n = readings.n;
    packing_put_reading_pairs(part, readings);
    if (n % 2 == 1) {
        j = n / 2;
        r50 = (uint16_t)((uint32_t)16 * packing_wide(part.at[3 * j]));
        put_i16(readings.at + (2 * j) * 2, packing_reading_of((uint16_t)(r50
            + (uint16_t)(packing_wide(part.at[3 * j + 1]) / 16))));
    }
}

/* packing::unpack, crates/packing/src/lib.rt. Writes the readings of a packed part into the lent
 * buffer. */
static bytes24_8 packing_unpack(slice part, slice readings) {
    bytes16_8 r6, r7;
    bytes24_8 result;
    uint64_t n;
    n = packing_readings_in(part.n);
    if (n == 0) {
        r6.b[0] = 1;
        result.b[0] = 1;
        copy(result.b + 8, r6.b, 16);
        return result;
    }
    if (readings.n != n) {
        r7.b[0] = 2;
        result.b[0] = 1;
        copy(result.b + 8, r7.b, 16);
        return result;
    }
    packing_put_readings(part, readings);
    result.b[0] = 0;
    return result;
}

#if defined(VECTORS)
#pragma GCC push_options
#pragma GCC optimize("O3")
#endif

/* rows::greater, crates/rows/src/lib.rt */
static uint32_t rows_greater(uint32_t x, uint32_t y) {
    return greater_i32(x, y);
}

/* rows::hard, crates/rows/src/lib.rt. The bit that a value speaks for: a positive one and 0 for
 * 0, a negative one for 1. */
static uint8_t rows_hard(uint32_t value) {
    return signed32(value) < 0;
}

/* rows::lesser, crates/rows/src/lib.rt */
static uint32_t rows_lesser(uint32_t x, uint32_t y) {
    return lesser_i32(x, y);
}

/* rows::loss, crates/rows/src/lib.rt. The size of a value that the bit contradicts, else 0. */
static uint32_t rows_loss(uint32_t value, uint8_t bit) {
    return either_i32(bit == 0, either_i32(signed32(value) < 0, 0 - value, 0),
        either_i32(signed32(value) < 0, 0, value));
}

/* rows::lower, crates/rows/src/lib.rt. The smaller of |x| and |y|, with the sign of their
 * product: the greater of their lesser and of minus their greater, which needs no branch. */
static uint32_t rows_lower(uint32_t x, uint32_t y) {
    uint32_t turned;
    turned = 0 - rows_greater(x, y);
    return rows_greater(rows_lesser(x, y), turned);
}

/* rows::lower_row, crates/rows/src/lib.rt. The row of h sums for the lower half, from the row of
 * 2h sums. */
static void rows_lower_row(slice rows, uint64_t h) {
    uint32_t x, y;
    uint64_t j;
    j = 0;
    while (j < h) {
        x = get_i32(rows.at + (h + h + j) * 4);
        y = get_i32(rows.at + (h + h + (h + j)) * 4);
        put_i32(rows.at + (h + j) * 4, rows_lower(x, y));
        j = j + 1;
    }
}

/* rows::lower_top, crates/rows/src/lib.rt. The row of h sums for the lower half, from 2h
 * readings. */
static void rows_lower_top(slice readings, slice rows, uint64_t h) {
    uint32_t x, y;
    uint64_t j;
    j = 0;
    while (j < h) {
        x = (uint32_t)signed16(get_i16(readings.at + j * 2));
        y = (uint32_t)signed16(get_i16(readings.at + (h + j) * 2));
        put_i32(rows.at + (h + j) * 4, rows_lower(x, y));
        j = j + 1;
    }
}

/* rows::put_signs, crates/rows/src/lib.rt. The bits that a row speaks for. */
static void rows_put_signs(slice row, slice word) {
    uint64_t i;
    i = 0;
    while (i < word.n) {
        word.at[i] = rows_hard(get_i32(row.at + i * 4));
        i = i + 1;
    }
}

/* rows::upper, crates/rows/src/lib.rt. y + x where a is 0, else y - x. */
static uint32_t rows_upper(uint32_t x, uint32_t y, uint8_t a) {
    return either_i32(a == 0, y + x, y - x);
}

/* rows::upper_row, crates/rows/src/lib.rt. The row of h sums for the upper half, from the row of
 * 2h sums and the lower half's word. */
static void rows_upper_row(slice rows, uint64_t h, slice word) {
    uint32_t x, y;
    uint64_t j;
    j = 0;
    while (j < h) {
        x = get_i32(rows.at + (h + h + j) * 4);
        y = get_i32(rows.at + (h + h + (h + j)) * 4);
        put_i32(rows.at + (h + j) * 4, rows_upper(x, y, word.at[j]));
        j = j + 1;
    }
}

/* rows::upper_top, crates/rows/src/lib.rt. The row of h sums for the upper half, from 2h
 * readings and the lower half's word. */
static void rows_upper_top(slice readings, slice rows, uint64_t h, slice word) {
    uint32_t x, y;
    uint64_t j;
    j = 0;
    while (j < h) {
        x = (uint32_t)signed16(get_i16(readings.at + j * 2));
        y = (uint32_t)signed16(get_i16(readings.at + (h + j) * 2));
        put_i32(rows.at + (h + j) * 4, rows_upper(x, y, word.at[j]));
        j = j + 1;
    }
}

/* blocks::information::all_chosen, crates/blocks/src/information.rt. All n indices from i on
 * carry information. Without an early end, so that many are tested at once. */
static bool blocks_information_all_chosen(slice kinds, uint64_t i, uint64_t n) {
    uint64_t j;
    uint8_t all;
    all = true;
    j = 0;
    while (j < n) {
        all = (uint8_t)(all & (kinds.at[i + j] != 0));
        j = j + 1;
    }
    return all;
}

/* blocks::frozen::fifteen_frozen, crates/blocks/src/frozen.rt. The 15 indices from i on are
 * frozen. No early return, so that the compiler looks at all at once. */
static bool blocks_frozen_fifteen_frozen(unsigned char *kinds, uint64_t i) {
    uint64_t j;
    uint8_t some;
    some = false;
    j = 0;
    while (j < 15) {
        some = (uint8_t)(some | (kinds[i + j] != 0));
        j = j + 1;
    }
    return !some;
}

/* blocks::information::hard_four, crates/blocks/src/information.rt. The choices of four indices
 * whose word is the bits that their row speaks for, by straight code. */
static void blocks_information_hard_four(slice rows, slice bits) {
    uint8_t a, b, c, d;
    b = rows_hard(get_i32(rows.at + 20));
    d = rows_hard(get_i32(rows.at + 28));
    c = (uint8_t)((uint8_t)(rows_hard(get_i32(rows.at + 24)) + d) % 2);
    a = (uint8_t)((uint8_t)(rows_hard(get_i32(rows.at + 16)) + b) % 2);
    *bits.at = (uint8_t)((uint8_t)(a + c) % 2);
    bits.at[1] = (uint8_t)((uint8_t)(b + d) % 2);
    bits.at[2] = c;
    bits.at[3] = d;
}

/* blocks::information::hard_row, crates/blocks/src/information.rt. The same of n = 2^s indices. */
static void blocks_information_hard_row(slice rows, slice bits, uint64_t n, uint64_t s) {
    if (s == 2) {
        blocks_information_hard_four(rows, bits);
        return;
    }
    rows_put_signs(slice_of(rows.at + n * 4, n + n - n), bits);
    bit_rows_transform(bits, s);
}

/* blocks::frozen::lost, crates/blocks/src/frozen.rt. What the same bit everywhere loses at the
 * row of 16 sums. */
static uint32_t blocks_frozen_lost(unsigned char *rows, uint8_t bit) {
    uint32_t p;
    uint64_t j;
    p = 0;
    j = 0;
    while (j < 16) {
        p = p + rows_loss(get_i32(rows + (16 + j) * 4), bit);
        j = j + 1;
    }
    return p;
}

/* blocks::frozen::added, crates/blocks/src/frozen.rt. What n zeros add, by the row of 16 sums:
 * 16 what all of them lose there; 15, which the better of both bits may follow, what that one
 * loses everywhere. */
static uint32_t blocks_frozen_added(unsigned char *rows, uint64_t n) {
    uint32_t ones, zeros;
    zeros = blocks_frozen_lost(rows, 0);
    if (n == 16) {
        return zeros;
    }
    ones = blocks_frozen_lost(rows, 1);
    return ones < zeros ? ones : zeros;
}

/* blocks::information::put_hard, crates/blocks/src/information.rt. These choices at the n
 * indices from i on. */
static void blocks_information_put_hard(slice rows, slice path, uint64_t i, uint64_t n,
    uint64_t s) {
    blocks_information_hard_row(rows, slice_of(path.at + i, i + n - i), n, s);
}

/* blocks::frozen::put_zeros, crates/blocks/src/frozen.rt. Sixteen zeros from i on. */
static void blocks_frozen_put_zeros(unsigned char *path, uint64_t i) {
    uint64_t j;
    j = 0;
    while (j < 16) {
        path[i + j] = 0;
        j = j + 1;
    }
}

/* blocks::frozen::run, crates/blocks/src/frozen.rt. How many of the 16 indices from i on are
 * taken at once: all, where they are frozen; all but the last, where only that carries
 * information; else none. */
static uint64_t blocks_frozen_run(unsigned char *kinds, uint64_t i) {
    if (!blocks_frozen_fifteen_frozen(kinds, i)) {
        return 0;
    }
    if (kinds[i + 15] == 0) {
        return 16;
    }
    return 15;
}

/* float_rows::greater, crates/float_rows/src/lib.rt */
static float float_rows_greater(float x, float y) {
    return x < y ? y : x;
}

/* float_rows::lesser, crates/float_rows/src/lib.rt */
static float float_rows_lesser(float x, float y) {
    return x < y ? x : y;
}

/* float_rows::loss, crates/float_rows/src/lib.rt. The size of a value that the bit contradicts,
 * else 0. */
static float float_rows_loss(float value, uint8_t bit) {
    return either_float(bit == 0, either_float(value < 0.0f, -value, 0.0f), value < 0.0f ? 0.0f
        : value);
}

/* float_rows::lower, crates/float_rows/src/lib.rt. The smaller of |x| and |y|, with the sign of
 * their product: the greater of the lesser one and minus the greater one, which needs no branch. */
static float float_rows_lower(float x, float y) {
    float turned;
    turned = -float_rows_greater(x, y);
    return float_rows_greater(float_rows_lesser(x, y), turned);
}

/* float_rows::lower_row, crates/float_rows/src/lib.rt. The row of h sums for the lower half,
 * from the row of 2h sums. */
static void float_rows_lower_row(slice rows, uint64_t h) {
    float x, y;
    uint64_t j;
    j = 0;
    while (j < h) {
        x = get_float(rows.at + (h + h + j) * 4);
        y = get_float(rows.at + (h + h + (h + j)) * 4);
        put_float(rows.at + (h + j) * 4, float_rows_lower(x, y));
        j = j + 1;
    }
}

/* float_rows::lower_top, crates/float_rows/src/lib.rt. The row of h sums for the lower half,
 * from 2h readings. */
static void float_rows_lower_top(slice readings, slice rows, uint64_t h) {
    float x, y;
    uint64_t j;
    j = 0;
    while (j < h) {
        x = get_float(readings.at + j * 4);
        y = get_float(readings.at + (h + j) * 4);
        put_float(rows.at + (h + j) * 4, float_rows_lower(x, y));
        j = j + 1;
    }
}

/* float_rows::upper, crates/float_rows/src/lib.rt. y + x where a is 0, else y - x. */
static float float_rows_upper(float x, float y, uint8_t a) {
    return either_float(a == 0, y + x, y - x);
}

/* float_rows::upper_row, crates/float_rows/src/lib.rt. The row of h sums for the upper half,
 * from the row of 2h sums and the lower half's word. */
static void float_rows_upper_row(slice rows, uint64_t h, slice word) {
    float x, y;
    uint64_t j;
    j = 0;
    while (j < h) {
        x = get_float(rows.at + (h + h + j) * 4);
        y = get_float(rows.at + (h + h + (h + j)) * 4);
        put_float(rows.at + (h + j) * 4, float_rows_upper(x, y, word.at[j]));
        j = j + 1;
    }
}

/* float_rows::upper_top, crates/float_rows/src/lib.rt. The row of h sums for the upper half,
 * from 2h readings and the lower half's word. */
static void float_rows_upper_top(slice readings, slice rows, uint64_t h, slice word) {
    float x, y;
    uint64_t j;
    j = 0;
    while (j < h) {
        x = get_float(readings.at + j * 4);
        y = get_float(readings.at + (h + j) * 4);
        put_float(rows.at + (h + j) * 4, float_rows_upper(x, y, word.at[j]));
        j = j + 1;
    }
}

/* memory::follows, crates/memory/src/lib.rt. Of the rows for index was, only those of the blocks
 * that start at i change for index i: the next larger block that holds i holds was, too. So it
 * is where i comes next, and where i starts the block behind the one that starts at was. */
static bool memory_follows(uint64_t was, uint64_t i) {
    if (i == 0) {
        return false;
    }
    return (was ^ i) <= (i ^ (i - 1));
}

/* memory::greater, crates/memory/src/lib.rt */
static uint64_t memory_greater(uint64_t a, uint64_t b) {
    uint64_t r2;
    if (a < b) {
        r2 = b;
    } else {
        r2 = a;
    }
    return r2;
}

/* memory::highest_one, crates/memory/src/lib.rt. The place of the highest one of x, or 0. */
static uint64_t memory_highest_one(uint64_t x) {
    return 63 - (uint64_t)(uint32_t)zeros_above64(x | 1);
}

/* memory::left_word, crates/memory/src/lib.rt. The word of the h bits that end before e. */
static void memory_left_word(slice path, slice word, uint64_t e, uint64_t h, uint64_t t) {
    uint64_t r11;
    r11 = e - h;
    bit_rows_put_row(slice_of(path.at + r11, e - r11), slice_of(word.at, h), t);
}

/* memory::lowest_one, crates/memory/src/lib.rt. The place of the lowest one of i. */
static uint64_t memory_lowest_one(uint64_t i) {
    return (uint64_t)(uint32_t)zeros_below64(i);
}

/* memory::pair, crates/memory/src/lib.rt. The same of two bits, by straight code, and by value:
 * the compiler keeps it in registers. */
static bytes2_1 memory_pair(slice path, uint64_t e) {
    bytes2_1 result;
    uint8_t a, b;
    b = path.at[e - 1];
    a = (uint8_t)((uint8_t)(path.at[e - 2] + b) % 2);
    result.b[0] = a;
    result.b[1] = b;
    return result;
}

/* memory::power, crates/memory/src/lib.rt. 2^m, the length of a row. */
static uint64_t memory_power(uint64_t m) {
    return UINT64_C(1) << m;
}

/* memory::row, crates/memory/src/lib.rt. The row of 2^t sums for index i, from the row of twice
 * as many. */
static void memory_row(slice rows, slice path, slice word, uint64_t t, uint64_t i) {
    uint64_t b, h, r17;
    h = memory_power(t);
    r17 = h;
    if (h == 0) {
        stuck();
    }
    b = i / r17;
    if (b % 2 == 1) {
        memory_left_word(path, word, b * h, h, t);
        rows_upper_row(rows, h, word);
        return;
    }
    rows_lower_row(rows, h);
}

/* memory::row_of_1, crates/memory/src/lib.rt. The row of one sum, from the row of two; a word of
 * one bit is that bit. */
static void memory_row_of_1(slice rows, slice path, uint64_t i) {
    uint64_t r24;
    if (i % 2 == 1) {
        r24 = i - 1;
        rows_upper_row(rows, 1, slice_of(path.at + r24, i - r24));
        return;
    }
    rows_lower_row(rows, 1);
}

/* memory::row_of_2, crates/memory/src/lib.rt. The row of two sums, from the row of four. */
static void memory_row_of_2(slice rows, slice path, uint64_t i) {
    bytes2_1 word, r6;
    uint64_t b;
    b = i / 2;
    if (b % 2 == 1) {
        r6 = memory_pair(path, b * 2);
        word = r6;
        rows_upper_row(rows, 2, slice_of(word.b, 2));
        return;
    }
    rows_lower_row(rows, 2);
}

/* memory::start_of_1, crates/memory/src/lib.rt. The same where i starts a block of one index and
 * none of two: one row. */
static void memory_start_of_1(slice rows, slice path, uint64_t i) {
    uint64_t r14;
    r14 = i - 1;
    rows_upper_row(rows, 1, slice_of(path.at + r14, i - r14));
}

/* memory::start_of_2, crates/memory/src/lib.rt. Of two and none of four: two rows. */
static void memory_start_of_2(slice rows, slice path, uint64_t i) {
    bytes2_1 word, r3;
    r3 = memory_pair(path, i);
    word = r3;
    rows_upper_row(rows, 2, slice_of(word.b, 2));
    rows_lower_row(rows, 1);
}

/* memory::top, crates/memory/src/lib.rt. Of the rows for index was, the highest that has to be
 * made again for index i: of a block that does not hold both, or that starts at i, where a bit
 * may have changed before it. */
static uint64_t memory_top(uint64_t m, uint64_t was, uint64_t i) {
    uint64_t r9;
    r9 = memory_highest_one(was ^ i);
    return memory_greater(r9, memory_lowest_one(i | memory_power(m - 1)));
}

/* memory::top_row, crates/memory/src/lib.rt. The same from all readings. */
static void memory_top_row(slice readings, slice rows, slice path, slice word, uint64_t t,
    uint64_t i) {
    uint64_t b, h, r18;
    h = memory_power(t);
    r18 = h;
    if (h == 0) {
        stuck();
    }
    b = i / r18;
    if (b % 2 == 1) {
        memory_left_word(path, word, b * h, h, t);
        rows_upper_top(readings, rows, h, word);
        return;
    }
    rows_lower_top(readings, rows, h);
}

/* memory::first_row, crates/memory/src/lib.rt. The highest row that is made. */
static void memory_first_row(slice readings, slice rows, slice path, slice word, uint64_t m,
    uint64_t t, uint64_t i) {
    uint64_t n;
    if (t + 1 == m) {
        n = memory_power(m);
        memory_top_row(slice_of(readings.at, n), rows, path, word, t, i);
        return;
    }
    memory_row(rows, path, word, t, i);
}

/* memory::make_rows, crates/memory/src/lib.rt. The row of 2^high sums and those below it down to
 * eight sums, by loops. */
static void memory_make_rows(slice readings, slice rows, slice path, slice word, uint64_t m,
    uint64_t high, uint64_t i) {
    uint64_t t;
    memory_first_row(readings, rows, path, word, m, high, i);
    t = high;
    while (3 < t) {
        t = t - 1;
        memory_row(rows, path, word, t, i);
    }
}

/* memory::start_of_more, crates/memory/src/lib.rt. Of 2^t and none of twice as many, t at least
 * 3: the row of 2^t sums, and all below it. These are lower rows, as no lower digit of i is 1. */
static void memory_start_of_more(slice readings, slice rows, slice path, slice word, uint64_t m,
    uint64_t t, uint64_t i) {
    uint64_t u;
    memory_first_row(readings, rows, path, word, m, t, i);
    u = t;
    while (3 < u) {
        u = u - 1;
        rows_lower_row(rows, memory_power(u));
    }
    rows_lower_row(rows, 4);
    rows_lower_row(rows, 2);
    rows_lower_row(rows, 1);
}

/* memory::word_of_2, crates/memory/src/lib.rt. Put into the scratch array, as the float board
 * takes it. */
static void memory_word_of_2(slice path, slice word, uint64_t e) {
    bytes2_1 both, r3;
    r3 = memory_pair(path, e);
    both = r3;
    *word.at = both.b[0];
    word.at[1] = both.b[1];
}

/* memory::word_of_4, crates/memory/src/lib.rt. And of four. */
static void memory_word_of_4(slice path, slice word, uint64_t e) {
    uint8_t a, b, c, d, q;
    q = path.at[e - 3];
    d = path.at[e - 1];
    c = (uint8_t)((uint8_t)(path.at[e - 2] + d) % 2);
    b = (uint8_t)((uint8_t)(q + d) % 2);
    a = (uint8_t)((uint8_t)((uint8_t)((uint8_t)(path.at[e - 4] + q) % 2) + c) % 2);
    *word.at = a;
    word.at[1] = b;
    word.at[2] = c;
    word.at[3] = d;
}

/* memory::row_of_4, crates/memory/src/lib.rt. The row of four sums for index i, from the row of
 * eight. Here and below rows of up to four sums are made with their length as a constant, so
 * that the compiler writes the loops out. */
static void memory_row_of_4(slice rows, slice path, slice word, uint64_t i) {
    uint64_t b;
    b = i / 4;
    if (b % 2 == 1) {
        memory_word_of_4(path, word, b * 4);
        rows_upper_row(rows, 4, word);
        return;
    }
    rows_lower_row(rows, 4);
}

/* memory::low_rows, crates/memory/src/lib.rt. The rows of less than 2^k sums, at most three of
 * them, for any index. */
static void memory_low_rows(slice rows, slice path, slice word, uint64_t k, uint64_t i) {
    if (k == 3) {
        memory_row_of_4(rows, path, word, i);
        memory_row_of_2(rows, path, i);
        memory_row_of_1(rows, path, i);
        return;
    }
    if (k == 2) {
        memory_row_of_2(rows, path, i);
        memory_row_of_1(rows, path, i);
        return;
    }
    memory_row_of_1(rows, path, i);
}

/* memory::few_rows, crates/memory/src/lib.rt. The row of 2^high sums and all below it, where m
 * is below 4: straight code makes them, save the highest of all, which is made from the
 * readings. */
static void memory_few_rows(slice readings, slice rows, slice path, slice word, uint64_t m,
    uint64_t high, uint64_t i) {
    uint64_t k;
    k = high + 1;
    if (k < m) {
        memory_low_rows(rows, path, word, k, i);
        return;
    }
    memory_first_row(readings, rows, path, word, m, high, i);
    if (0 < high) {
        memory_low_rows(rows, path, word, high, i);
    }
}

/* memory::any_value, crates/memory/src/lib.rt. The value at index i of the path, whichever index
 * the rows are for. Rows of up to four sums are made by straight code. */
static uint32_t memory_any_value(unsigned char *readings, unsigned char *rows, unsigned char *path,
    unsigned char *word, uint64_t m, uint64_t was, uint64_t i) {
    uint64_t high;
    if (m == 0) {
        return (uint32_t)signed16(get_i16(readings));
    }
    high = memory_top(m, was, i);
    if (m < 4) {
        memory_few_rows(slice_of(readings, 256), slice_of(rows, 256), slice_of(path, 256),
            slice_of(word, 256), m, high, i);
        return get_i32(rows + 4);
    }
    if (high < 3) {
        memory_low_rows(slice_of(rows, 256), slice_of(path, 256), slice_of(word, 256), high + 1, i);
        return get_i32(rows + 4);
    }
    memory_make_rows(slice_of(readings, 256), slice_of(rows, 256), slice_of(path, 256),
        slice_of(word, 256), m, high, i);
    memory_low_rows(slice_of(rows, 256), slice_of(path, 256), slice_of(word, 256), 3, i);
    return get_i32(rows + 4);
}

/* memory::start_of_4, crates/memory/src/lib.rt. Of four and none of eight: three rows. */
static void memory_start_of_4(slice rows, slice path, slice word, uint64_t i) {
    memory_word_of_4(path, word, i);
    rows_upper_row(rows, 4, word);
    rows_lower_row(rows, 2);
    rows_lower_row(rows, 1);
}

/* memory::value, crates/memory/src/lib.rt. The value at index i of the path. The rows are for
 * index was, and then for i. Most often only the rows of the blocks that start at i change: at
 * most three, of up to four sums, for seven indices in eight. Two places call any_value, so that
 * the compiler keeps it out of that short way. */
static uint32_t memory_value(unsigned char *readings, unsigned char *rows, unsigned char *path,
    unsigned char *word, uint64_t m, uint64_t was, uint64_t i) {
    if (m < 4) {
        return memory_any_value(readings, rows, path, word, m, was, i);
    }
    if (memory_follows(was, i)) {
        if (i % 2 == 1) {
            memory_start_of_1(slice_of(rows, 256), slice_of(path, 256), i);
            return get_i32(rows + 4);
        }
        if (i % 4 == 2) {
            memory_start_of_2(slice_of(rows, 256), slice_of(path, 256), i);
            return get_i32(rows + 4);
        }
        if (i % 8 == 4) {
            memory_start_of_4(slice_of(rows, 256), slice_of(path, 256), slice_of(word, 256), i);
            return get_i32(rows + 4);
        }
        memory_start_of_more(slice_of(readings, 256), slice_of(rows, 256), slice_of(path, 256),
            slice_of(word, 256), m, memory_lowest_one(i), i);
        return get_i32(rows + 4);
    }
    return memory_any_value(readings, rows, path, word, m, was, i);
}

/* float_memory::row, crates/float_memory/src/lib.rt. The row of 2^t sums for index i, from the
 * row of twice as many. */
static void float_memory_row(slice rows, slice path, slice word, uint64_t t, uint64_t i) {
    uint64_t b, h, r17;
    h = memory_power(t);
    r17 = h;
    if (h == 0) {
        stuck();
    }
    b = i / r17;
    if (b % 2 == 1) {
        memory_left_word(path, word, b * h, h, t);
        float_rows_upper_row(rows, h, word);
        return;
    }
    float_rows_lower_row(rows, h);
}

/* float_memory::start_of_1, crates/float_memory/src/lib.rt. The row of one sum, where i starts a
 * block of one index and none of two. Here and below rows of up to four sums are made with their
 * length as a constant, so that the compiler writes the loops out. */
static void float_memory_start_of_1(slice rows, slice path, uint64_t i) {
    uint64_t r14;
    r14 = i - 1;
    float_rows_upper_row(rows, 1, slice_of(path.at + r14, i - r14));
}

/* float_memory::start_of_2, crates/float_memory/src/lib.rt. For a block of two and none of four:
 * two rows. */
static void float_memory_start_of_2(slice rows, slice path, slice word, uint64_t i) {
    memory_word_of_2(path, word, i);
    float_rows_upper_row(rows, 2, word);
    float_rows_lower_row(rows, 1);
}

/* float_memory::start_of_4, crates/float_memory/src/lib.rt. For a block of four and none of
 * eight: three rows. */
static void float_memory_start_of_4(slice rows, slice path, slice word, uint64_t i) {
    memory_word_of_4(path, word, i);
    float_rows_upper_row(rows, 4, word);
    float_rows_lower_row(rows, 2);
    float_rows_lower_row(rows, 1);
}

/* float_memory::top_row, crates/float_memory/src/lib.rt. The same from all readings. */
static void float_memory_top_row(slice readings, slice rows, slice path, slice word, uint64_t t,
    uint64_t i) {
    uint64_t b, h, r18;
    h = memory_power(t);
    r18 = h;
    if (h == 0) {
        stuck();
    }
    b = i / r18;
    if (b % 2 == 1) {
        memory_left_word(path, word, b * h, h, t);
        float_rows_upper_top(readings, rows, h, word);
        return;
    }
    float_rows_lower_top(readings, rows, h);
}

/* float_memory::first_row, crates/float_memory/src/lib.rt. The highest row that is made. */
static void float_memory_first_row(slice readings, slice rows, slice path, slice word, uint64_t m,
    uint64_t t, uint64_t i) {
    uint64_t n;
    if (t + 1 == m) {
        n = memory_power(m);
        float_memory_top_row(slice_of(readings.at, n), rows, path, word, t, i);
        return;
    }
    float_memory_row(rows, path, word, t, i);
}

/* float_memory::make_rows, crates/float_memory/src/lib.rt. The row of 2^high sums and all below
 * it. */
static void float_memory_make_rows(slice readings, slice rows, slice path, slice word, uint64_t m,
    uint64_t high, uint64_t i) {
    uint64_t t;
    float_memory_first_row(readings, rows, path, word, m, high, i);
    t = high;
    while (0 < t) {
        t = t - 1;
        float_memory_row(rows, path, word, t, i);
    }
}

/* float_memory::any_value, crates/float_memory/src/lib.rt. The value at index i of the path,
 * whichever index the rows are for. */
static float float_memory_any_value(unsigned char *readings, unsigned char *rows,
    unsigned char *path, unsigned char *word, uint64_t m, uint64_t was, uint64_t i) {
    uint64_t high;
    if (m == 0) {
        return get_float(readings);
    }
    high = memory_top(m, was, i);
    float_memory_make_rows(slice_of(readings, 256), slice_of(rows, 256), slice_of(path, 256),
        slice_of(word, 256), m, high, i);
    return get_float(rows + 4);
}

/* float_memory::value, crates/float_memory/src/lib.rt. The value at index i of the path. The
 * rows are for index was, and then for i. Most often i comes next, and then at most three rows,
 * of up to four sums, have to be made for seven indices in eight; two places call any_value, so
 * that the compiler does not inline it into that short path. */
static float float_memory_value(unsigned char *readings, unsigned char *rows, unsigned char *path,
    unsigned char *word, uint64_t m, uint64_t was, uint64_t i) {
    if (m < 4) {
        return float_memory_any_value(readings, rows, path, word, m, was, i);
    }
    if (was + 1 == i) {
        if (i % 2 == 1) {
            float_memory_start_of_1(slice_of(rows, 256), slice_of(path, 256), i);
            return get_float(rows + 4);
        }
        if (i % 4 == 2) {
            float_memory_start_of_2(slice_of(rows, 256), slice_of(path, 256), slice_of(word, 256),
                i);
            return get_float(rows + 4);
        }
        if (i % 8 == 4) {
            float_memory_start_of_4(slice_of(rows, 256), slice_of(path, 256), slice_of(word, 256),
                i);
            return get_float(rows + 4);
        }
    }
    return float_memory_any_value(readings, rows, path, word, m, was, i);
}

/* quick::bars, crates/quick/src/lib.rt. Whether an index is frozen or its sum 0. */
static bool quick_bars(uint8_t kind, uint32_t value) {
    return (kind == 0) | (value == 0);
}

/* quick::barred, crates/quick/src/lib.rt. Whether this is so anywhere in a row: first both ends,
 * then all, without an early end. */
static bool quick_barred(slice kinds, slice row) {
    uint64_t i, n;
    uint8_t some;
    n = kinds.n;
    if (quick_bars(*kinds.at, get_i32(row.at))) {
        return true;
    }
    if (quick_bars(kinds.at[n - 1], get_i32(row.at + (n - 1) * 4))) {
        return true;
    }
    some = false;
    i = 0;
    while (i < n) {
        some = (uint8_t)(some | quick_bars(kinds.at[i], get_i32(row.at + i * 4)));
        i = i + 1;
    }
    return some;
}

/* quick::decide, crates/quick/src/lib.rt. At one position: 0 at a frozen index, else the bit
 * that the value speaks for. */
static uint8_t quick_decide(uint8_t kind, uint32_t value) {
    return either_i8(kind == 0, 0, rows_hard(value));
}

/* quick::penalty, crates/quick/src/lib.rt */
static uint32_t quick_penalty(slice readings, slice word) {
    uint32_t sum;
    uint64_t j, r5;
    sum = 0;
    j = 0;
    r5 = word.n;
    while (j < r5) {
        sum = sum + rows_loss((uint32_t)signed16(get_i16(readings.at + j * 2)), word.at[j]);
        j = j + 1;
    }
    return sum;
}

/* quick::put_zeros, crates/quick/src/lib.rt */
static void quick_put_zeros(slice word) {
    uint64_t i;
    i = 0;
    while (i < word.n) {
        word.at[i] = 0;
        i = i + 1;
    }
}

/* quick::some_information, crates/quick/src/lib.rt. Whether an index of a row carries
 * information: first the last, which in a code's row does if any does; then all, without an
 * early end, so that many are tested at once. */
static bool quick_some_information(slice kinds) {
    uint64_t i;
    uint8_t some;
    if (kinds.at[kinds.n - 1] != 0) {
        return true;
    }
    some = false;
    i = 0;
    while (i < kinds.n) {
        some = (uint8_t)(some | (kinds.at[i] != 0));
        i = i + 1;
    }
    return some;
}

/* quick::first_half, crates/quick/src/lib.rt. The first half of the word, from the half's row;
 * the sums after that row are kept. */
static void quick_first_half(slice rows, slice kinds, slice word, uint64_t m) {
    uint64_t h, n;
    n = word.n;
    h = n / 2;
    quick_quick_row(slice_of(rows.at, n), slice_of(kinds.at, h), slice_of(word.at, h), m - 1);
}

/* quick::quick_row, crates/quick/src/lib.rt. The word of a row of 2^m sums, down to a single
 * one; directly zeros if every index is frozen, or the signs if every index carries information
 * and no sum is 0. */
static void quick_quick_row(slice rows, slice kinds, slice word, uint64_t m) {
    uint64_t h, n;
    if (m == 0) {
        *word.at = quick_decide(*kinds.at, get_i32(rows.at + 4));
        return;
    }
    if (!quick_some_information(kinds)) {
        quick_put_zeros(word);
        return;
    }
    n = word.n;
    if (!quick_barred(kinds, slice_of(rows.at + n * 4, rows.n - n))) {
        rows_put_signs(slice_of(rows.at + n * 4, rows.n - n), word);
        return;
    }
    h = n / 2;
    rows_lower_row(rows, h);
    quick_first_half(rows, kinds, word, m);
    rows_upper_row(rows, h, word);
    quick_second_half(rows, kinds, word, m);
    bit_rows_fold(word, h);
}

/* quick::second_half, crates/quick/src/lib.rt. The second half of the word, from the half's row. */
static void quick_second_half(slice rows, slice kinds, slice word, uint64_t m) {
    uint64_t h, n;
    n = word.n;
    h = n / 2;
    quick_quick_row(slice_of(rows.at, n), slice_of(kinds.at + h, kinds.n - h), slice_of(word.at
        + h, word.n - h), m - 1);
}

/* quick::quick_word, crates/quick/src/lib.rt. The word of 2^m readings. The running sums of all
 * rows are stored in one array. */
static void quick_quick_word(slice readings, slice kinds, slice word, uint64_t m) {
    bytes1024_4 rows;
    uint64_t h, r30, r54;
    if (m == 0) {
        *word.at = quick_decide(*kinds.at, (uint32_t)signed16(get_i16(readings.at)));
        return;
    }
    r30 = 0;
    for (;;) {
        put_i32(rows.b + r30, 0);
        r54 = r30 + 4;
        r30 = r54;
        if (r54 == 1024) break;
    }
    h = word.n / 2;
    rows_lower_top(readings, slice_of(rows.b, 256), h);
    quick_first_half(slice_of(rows.b, 256), kinds, word, m);
    rows_upper_top(readings, slice_of(rows.b, 256), h, word);
    quick_second_half(slice_of(rows.b, 256), kinds, word, m);
    bit_rows_fold(word, h);
}

/* quick::read_kinds, crates/quick/src/lib.rt. The same over any row of kinds. The running sums
 * and the row of the information bits are needed one after the other; in one function they take
 * the same place on the stack. */
static uint32_t quick_read_kinds(slice kinds, slice readings, slice bits, slice word, uint64_t m) {
    quick_quick_word(readings, kinds, word, m);
    bit_rows_take_bits(kinds, word, bits, m);
    return quick_penalty(readings, word);
}

/* quick::take_reading, crates/quick/src/lib.rt. The work, once no test refuses. */
static uint32_t quick_take_reading(bytes8_4 code, slice readings, slice bits, slice word) {
    bytes256_1 kinds;
    uint64_t m, n;
    fill(kinds.b, 0, 256);
    n = code_Code_length(code);
    m = (uint64_t)get_i32(code.b + 4);
    code_put_kinds(code, slice_of(kinds.b, n));
    return quick_read_kinds(slice_of(kinds.b, n), readings, bits, word, m);
}

/* quick::quick, crates/quick/src/lib.rt. Reads the readings by halves: writes the information
 * bits and the word, and gives the penalty. */
static bytes24_8 quick_quick(uint32_t r, uint32_t m, slice readings, slice bits, slice word) {
    bytes16_8 why;
    bytes24_8 r7, r10;
    bytes8_4 code;
    uint32_t penalty;
    r7 = code_admit(r, m, readings, bits.n, word.n);
    switch (r7.b[0]) {
    case 1:
        copy(why.b, r7.b + 8, 16);
        r10.b[0] = 1;
        copy(r10.b + 8, why.b, 16);
        break;
    case 0:
        copy(code.b, r7.b + 4, 8);
        penalty = quick_take_reading(code, readings, bits, word);
        r10.b[0] = 0;
        put_i32(r10.b + 4, penalty);
        break;
    default:
        unreachable();
    }
    return r10;
}

#if defined(VECTORS)
#pragma GCC pop_options
#endif

/* shortened::put_word, crates/shortened/src/lib.rt. The kinds that are left go into a row of
 * scratch, and the bits into the word by these kinds. */
static void shortened_put_word(bytes8_4 code, slice named, slice kinds, slice bits, slice word) {
    named_put_left(code, named, kinds);
    bit_rows_fill(kinds, bits, word);
    bit_rows_transform(word, (uint64_t)get_i32(code.b + 4));
}

/* shortened::encode_left, crates/shortened/src/lib.rt. The tests 2 to 4 of the encoder, and its
 * work. */
static bytes24_8 shortened_encode_left(bytes8_4 code, slice named, slice bits, slice word) {
    bytes16_8 r11, r12, r13;
    bytes24_8 result;
    bytes256_1 kinds;
    uint64_t n, place;
    if (bits.n != named_count_left(code, named)) {
        r11.b[0] = 1;
        result.b[0] = 1;
        copy(result.b + 8, r11.b, 16);
        return result;
    }
    n = code_Code_length(code);
    if (word.n != n) {
        r12.b[0] = 2;
        result.b[0] = 1;
        copy(result.b + 8, r12.b, 16);
        return result;
    }
    place = code_first_bad_bit(bits);
    if (place < bits.n) {
        r13.b[0] = 3;
        put_i64(r13.b + 8, place);
        result.b[0] = 1;
        copy(result.b + 8, r13.b, 16);
        return result;
    }
    fill(kinds.b, 0, 256);
    shortened_put_word(code, named, slice_of(kinds.b, n), bits, word);
    result.b[0] = 0;
    return result;
}

/* shortened::encode_shortened, crates/shortened/src/lib.rt. Writes the word of the information
 * bits that are left into the lent buffer. */
static bytes24_8 shortened_encode_shortened(uint32_t r, uint32_t m, slice named, slice bits,
    slice word) {
    bytes16_8 why;
    bytes24_8 r6, r7;
    bytes8_4 code;
    r6 = named_admit_row(r, m, named);
    switch (r6.b[0]) {
    case 1:
        copy(why.b, r6.b + 8, 16);
        r7.b[0] = 1;
        copy(r7.b + 8, why.b, 16);
        break;
    case 0:
        copy(code.b, r6.b + 4, 8);
        r7 = shortened_encode_left(code, named, bits, word);
        break;
    default:
        unreachable();
    }
    return r7;
}

/* shortened::take_back, crates/shortened/src/lib.rt */
static bytes24_8 shortened_take_back(bytes8_4 code, slice named, slice kinds, slice row,
    slice word, slice bits) {
    named_put_left(code, named, kinds);
    bit_rows_put_row(word, row, (uint64_t)get_i32(code.b + 4));
    return encode_take_row(kinds, row, bits);
}

/* shortened::inverse_left, crates/shortened/src/lib.rt. The tests 2 to 4 of the inverse, and its
 * work. */
static bytes24_8 shortened_inverse_left(bytes8_4 code, slice named, slice word, slice bits) {
    bytes16_8 r11, r13, r14;
    bytes24_8 result;
    bytes256_1 kinds, row;
    uint64_t n, place;
    n = code_Code_length(code);
    if (word.n != n) {
        r11.b[0] = 1;
        result.b[0] = 1;
        copy(result.b + 8, r11.b, 16);
        return result;
    }
    if (bits.n != named_count_left(code, named)) {
        r13.b[0] = 2;
        result.b[0] = 1;
        copy(result.b + 8, r13.b, 16);
        return result;
    }
    place = code_first_bad_bit(word);
    if (place < word.n) {
        r14.b[0] = 3;
        put_i64(r14.b + 8, place);
        result.b[0] = 1;
        copy(result.b + 8, r14.b, 16);
        return result;
    }
    fill(kinds.b, 0, 256);
    fill(row.b, 0, 256);
    return shortened_take_back(code, named, slice_of(kinds.b, n), slice_of(row.b, n), word, bits);
}

/* shortened::inverse_shortened, crates/shortened/src/lib.rt. Writes the information bits of the
 * word into the lent buffer: a named index is frozen. */
static bytes24_8 shortened_inverse_shortened(uint32_t r, uint32_t m, slice named, slice word,
    slice bits) {
    bytes16_8 why;
    bytes24_8 r6, r7;
    bytes8_4 code;
    r6 = named_admit_row(r, m, named);
    switch (r6.b[0]) {
    case 1:
        copy(why.b, r6.b + 8, 16);
        r7.b[0] = 1;
        copy(r7.b + 8, why.b, 16);
        break;
    case 0:
        copy(code.b, r6.b + 4, 8);
        r7 = shortened_inverse_left(code, named, word, bits);
        break;
    default:
        unreachable();
    }
    return r7;
}

/* shortened::take_reading, crates/shortened/src/lib.rt */
static uint32_t shortened_take_reading(bytes8_4 code, slice named, slice kinds, slice readings,
    slice bits, slice word) {
    uint64_t m;
    m = (uint64_t)get_i32(code.b + 4);
    named_put_left(code, named, kinds);
    return quick_read_kinds(kinds, readings, bits, word, m);
}

/* shortened::quick_left, crates/shortened/src/lib.rt. The tests 2 to 4 of the quick reading, and
 * its work. */
static bytes24_8 shortened_quick_left(bytes8_4 code, slice named, slice readings, slice bits,
    slice word) {
    bytes16_8 why;
    bytes24_8 r11, r14;
    bytes256_1 kinds;
    uint32_t penalty;
    uint64_t left, n;
    left = named_count_left(code, named);
    r11 = code_admit_for(code, left, readings, bits.n, word.n);
    switch (r11.b[0]) {
    case 1:
        copy(why.b, r11.b + 8, 16);
        r14.b[0] = 1;
        copy(r14.b + 8, why.b, 16);
        break;
    case 0:
        fill(kinds.b, 0, 256);
        n = code_Code_length(code);
        penalty = shortened_take_reading(code, named, slice_of(kinds.b, n), readings, bits, word);
        r14.b[0] = 0;
        put_i32(r14.b + 4, penalty);
        break;
    default:
        unreachable();
    }
    return r14;
}

/* shortened::quick_shortened, crates/shortened/src/lib.rt. Reads the readings by halves: writes
 * the information bits and the word, and gives the penalty. */
static bytes24_8 shortened_quick_shortened(uint32_t r, uint32_t m, slice named, slice readings,
    slice bits, slice word) {
    bytes16_8 why;
    bytes24_8 r7, r8;
    bytes8_4 code;
    r7 = named_admit_row(r, m, named);
    switch (r7.b[0]) {
    case 1:
        copy(why.b, r7.b + 8, 16);
        r8.b[0] = 1;
        copy(r8.b + 8, why.b, 16);
        break;
    case 0:
        copy(code.b, r7.b + 4, 8);
        r8 = shortened_quick_left(code, named, readings, bits, word);
        break;
    default:
        unreachable();
    }
    return r8;
}

#if defined(VECTORS)
#pragma GCC push_options
#pragma GCC optimize("O3")
#endif

/* walk::allows, crates/walk/src/lib.rt. n visits more are allowed: compared so that nothing
 * wraps. */
static bool walk_allows(unsigned char *state, uint32_t n) {
    uint32_t allowed, visits;
    allowed = get_i32(state + 28);
    if (allowed < n) {
        return false;
    }
    visits = get_i32(state + 12);
    return visits <= allowed - n;
}

/* walk::copy_front, crates/walk/src/lib.rt */
static void walk_copy_front(slice from, slice to, uint64_t n) {
    bit_rows_copy(slice_of(from.at, n), slice_of(to.at, n));
}

/* walk::copy, crates/walk/src/lib.rt. The first n bytes. */
static void walk_copy(unsigned char *from, unsigned char *to, uint64_t n) {
    walk_copy_front(slice_of(from, 256), slice_of(to, 256), n);
}

/* walk::dropped, crates/walk/src/lib.rt. The penalty is not below the second's; while no second
 * is held, that is above all penalties. */
static bool walk_dropped(unsigned char *state, uint32_t penalty) {
    return get_i32(state + 8) <= penalty;
}

/* walk::finish, crates/walk/src/lib.rt. A full path is held: as best, when the old best becomes
 * second, or as second. */
static void walk_finish(unsigned char *path, unsigned char *best, unsigned char *second,
    uint64_t n, uint32_t penalty, unsigned char *state) {
    uint32_t old;
    if (get_i32(state) == 0) {
        walk_copy(path, best, n);
        put_i32(state, 1);
        put_i32(state + 4, penalty);
        return;
    }
    old = get_i32(state + 4);
    put_i32(state, 2);
    if (penalty < old) {
        walk_copy(best, second, n);
        walk_copy(path, best, n);
        put_i32(state + 8, old);
        put_i32(state + 4, penalty);
        return;
    }
    walk_copy(path, second, n);
    put_i32(state + 8, penalty);
}

/* walk::full, crates/walk/src/lib.rt. The path has all its bits. */
static bool walk_full(unsigned char *state, uint64_t i) {
    uint32_t m;
    m = get_i32(state + 24);
    return i == (UINT64_C(1) << (uint64_t)m);
}

/* walk::has_row, crates/walk/src/lib.rt. There are more than n indices, so that a block of n has
 * a row of n sums. */
static bool walk_has_row(unsigned char *state, uint64_t n) {
    uint32_t m;
    m = get_i32(state + 24);
    return n < (UINT64_C(1) << (uint64_t)m);
}

/* walk::next, crates/walk/src/lib.rt */
static uint32_t walk_next(uint32_t visits, uint32_t allowed) {
    (void)allowed;
    return visits + 1;
}

/* walk::plus, crates/walk/src/lib.rt */
static uint32_t walk_plus(uint32_t visits, uint32_t n, uint32_t allowed) {
    (void)allowed;
    return visits + n;
}

/* walk::count, crates/walk/src/lib.rt. n visits more, which are allowed. */
static void walk_count(unsigned char *state, uint32_t n) {
    uint32_t allowed, visits;
    visits = get_i32(state + 12);
    allowed = get_i32(state + 28);
    put_i32(state + 12, walk_plus(visits, n, allowed));
}

/* walk::put, crates/walk/src/lib.rt */
static void walk_put(unsigned char *path, uint64_t i, uint8_t bit) {
    path[i] = bit;
}

/* walk::starts_block, crates/walk/src/lib.rt. A block of 16 indices starts at i and is not all
 * there are, so that it has a row of 16 sums. */
static bool walk_starts_block(unsigned char *state, uint64_t i) {
    if (i % 16 != 0) {
        return false;
    }
    return 4 < get_i32(state + 24);
}

/* walk::visit, crates/walk/src/lib.rt. One visit more, or out: tested before it is counted, so
 * that no allowance wraps. */
static bool walk_visit(unsigned char *state) {
    uint32_t allowed, visits;
    visits = get_i32(state + 12);
    allowed = get_i32(state + 28);
    if (visits < allowed) {
        put_i32(state + 12, walk_next(visits, allowed));
        return true;
    }
    put_i32(state + 16, 1);
    return false;
}

/* walk::visits, crates/walk/src/lib.rt. n visits more; or where not all are allowed, as many as
 * are, and out. */
static bool walk_visits(unsigned char *state, uint32_t n) {
    uint32_t allowed;
    if (walk_allows(state, n)) {
        walk_count(state, n);
        return true;
    }
    allowed = get_i32(state + 28);
    put_i32(state + 12, allowed);
    put_i32(state + 16, 1);
    return false;
}

/* walk::wide, crates/walk/src/lib.rt */
static uint64_t walk_wide(uint32_t x) {
    return (uint64_t)x;
}

/* walk::hard_block, crates/walk/src/lib.rt. Whether a block of n = 2^s indices that has a row
 * starts at i, for which the rows are made, and all of them carry information; if so, each has
 * the bit that its value speaks for. */
static bool walk_hard_block(unsigned char *kinds, unsigned char *rows, unsigned char *path,
    unsigned char *state, uint64_t i, uint32_t n, uint64_t s) {
    uint64_t length, r12;
    length = walk_wide(n);
    r12 = length;
    if (length == 0) {
        stuck();
    }
    if (i % r12 != 0) {
        return false;
    }
    if (!walk_has_row(state, length)) {
        return false;
    }
    if (!blocks_information_all_chosen(slice_of(kinds, 256), i, length)) {
        return false;
    }
    blocks_information_put_hard(slice_of(rows, 256), slice_of(path, 256), i, length, s);
    return true;
}

/* walk::hard_blocks, crates/walk/src/lib.rt. The largest such block of 16, 8, 4 or 2 indices:
 * how many it has; or 1, and nothing changes. */
static uint32_t walk_hard_blocks(unsigned char *kinds, unsigned char *rows, unsigned char *path,
    unsigned char *state, uint64_t i) {
    if (walk_hard_block(kinds, rows, path, state, i, 16, 4)) {
        return 16;
    }
    if (walk_hard_block(kinds, rows, path, state, i, 8, 3)) {
        return 8;
    }
    if (walk_hard_block(kinds, rows, path, state, i, 4, 2)) {
        return 4;
    }
    if (walk_hard_block(kinds, rows, path, state, i, 2, 1)) {
        return 2;
    }
    return 1;
}

/* walk::made_for, crates/walk/src/lib.rt. The rows are made for index i now. */
static uint64_t walk_made_for(unsigned char *state, uint64_t i) {
    uint32_t was;
    was = get_i32(state + 20);
    put_i32(state + 20, (uint32_t)i);
    return walk_wide(was);
}

/* walk::value_at, crates/walk/src/lib.rt. The value at index i of the path. */
static uint32_t walk_value_at(unsigned char *readings, unsigned char *rows, unsigned char *path,
    unsigned char *word, unsigned char *state, uint64_t i) {
    uint32_t m;
    uint64_t was;
    m = get_i32(state + 24);
    was = walk_made_for(state, i);
    return memory_value(readings, rows, path, word, walk_wide(m), was, i);
}

/* walk::zeros, crates/walk/src/lib.rt. Such a block starts at i, for which the rows are made and
 * a visit is counted. Where all are frozen, or all but the last, and no zero is dropped, and the
 * visits are allowed, the frozen ones are taken at once: the penalty after them times 256, and
 * how many. Otherwise 0, and nothing changes. */
static uint64_t walk_zeros(unsigned char *kinds, unsigned char *rows, unsigned char *path,
    unsigned char *state, uint64_t i, uint32_t penalty) {
    uint32_t more, reached;
    uint64_t n;
    n = blocks_frozen_run(kinds, i);
    if (n == 0) {
        return 0;
    }
    reached = penalty + blocks_frozen_added(rows, n);
    if (walk_dropped(state, reached)) {
        return 0;
    }
    more = (uint32_t)(n - 1);
    if (!walk_allows(state, more)) {
        return 0;
    }
    walk_count(state, more);
    blocks_frozen_put_zeros(path, i);
    return ((uint64_t)reached << 8) + n;
}

/* walk::taken, crates/walk/src/lib.rt. What is taken at once at i, for which the rows are made
 * and a visit is counted: of frozen indices as zeros gives it, of information indices how many,
 * and nothing is counted. It serves both steps, so that the compiler keeps it out of them, and
 * their frames stay as small as they are without it. */
static uint64_t walk_taken(unsigned char *kinds, unsigned char *rows, unsigned char *path,
    unsigned char *state, uint64_t i, uint32_t penalty) {
    if (kinds[i] == 0) {
        return walk_zeros(kinds, rows, path, state, i, penalty);
    }
    return (uint64_t)walk_hard_blocks(kinds, rows, path, state, i);
}

/* walk::hard_here, crates/walk/src/lib.rt. How many information indices from i on have the bits
 * that their values speak for, where that at i is put: those of the largest block that starts
 * there, or i alone. Only zeros need a penalty. */
static uint32_t walk_hard_here(unsigned char *kinds, unsigned char *rows, unsigned char *path,
    unsigned char *state, uint64_t i) {
    if (i % 2 != 0) {
        return 1;
    }
    return (uint32_t)walk_taken(kinds, rows, path, state, i, 0);
}

/* walk::frozen_step, crates/walk/src/lib.rt. The path of the first `from` bits, of this penalty,
 * goes on with a 0 at each frozen index: up to an information index or the end, or until an
 * extension is dropped or not allowed. */
static void walk_frozen_step(unsigned char *readings, unsigned char *kinds, unsigned char *rows,
    unsigned char *path, unsigned char *word, unsigned char *best, unsigned char *second,
    unsigned char *state, uint64_t from, uint32_t penalty) {
    uint32_t sum, value;
    uint64_t block, i;
    i = from;
    sum = penalty;
    while (!walk_full(state, i)) {
        if (kinds[i] != 0) {
            walk_info_step(readings, kinds, rows, path, word, best, second, state, i, sum);
            return;
        }
        if (!walk_visit(state)) return;
        value = walk_value_at(readings, rows, path, word, state, i);
        if (walk_starts_block(state, i)) {
            block = walk_taken(kinds, rows, path, state, i, sum);
            if (block != 0) {
                i = i + block % 256;
                sum = (uint32_t)(block >> 8);
                continue;
            }
        }
        sum = sum + rows_loss(value, 0);
        if (walk_dropped(state, sum)) return;
        walk_put(path, i, 0);
        i = i + 1;
    }
    walk_finish(path, best, second, i, sum, state);
}

/* walk::info_step, crates/walk/src/lib.rt. Both extensions at an information index i: first the
 * bit that the value speaks for, which adds nothing, so that it is not dropped; when everything
 * under it is done, the other. Where the walk under the first wanted a visit that is not
 * allowed, none is left for the other. Where the other is dropped at once, it is dropped then,
 * too: its visit is counted before, and nothing is left to do after the first. The same holds of
 * each index of a block that starts at i, since no sum of the block's row has a smaller size
 * than the value at i. */
static void walk_info_step(unsigned char *readings, unsigned char *kinds, unsigned char *rows,
    unsigned char *path, unsigned char *word, unsigned char *best, unsigned char *second,
    unsigned char *state, uint64_t i, uint32_t penalty) {
    uint32_t after, n, value;
    uint8_t first, gone, other;
    if (!walk_visit(state)) return;
    value = walk_value_at(readings, rows, path, word, state, i);
    first = rows_hard(value);
    other = (uint8_t)(1 - first);
    after = penalty + rows_loss(value, other);
    walk_put(path, i, first);
    gone = walk_dropped(state, after);
    if (gone) {
        n = walk_hard_here(kinds, rows, path, state, i);
        if (!walk_visits(state, n + n - 1)) return;
        walk_frozen_step(readings, kinds, rows, path, word, best, second, state, i + walk_wide(n),
            penalty);
        return;
    }
    walk_frozen_step(readings, kinds, rows, path, word, best, second, state, i + 1, penalty);
    if (!walk_visit(state)) return;
    if (walk_dropped(state, after)) return;
    walk_put(path, i, other);
    walk_frozen_step(readings, kinds, rows, path, word, best, second, state, i + 1, after);
}

/* walk::walk, crates/walk/src/lib.rt. The whole walk under an allowance. The rows of bits of the
 * full paths that it holds are in best and second. */
static void walk_walk(unsigned char *readings, unsigned char *kinds, uint32_t m, uint32_t allowed,
    unsigned char *best, unsigned char *second, unsigned char *state) {
    bytes1024_4 rows;
    bytes256_1 path, word;
    uint64_t r19, r22;
    r19 = 0;
    for (;;) {
        put_i32(rows.b + r19, 0);
        r22 = r19 + 4;
        r19 = r22;
        if (r22 == 1024) break;
    }
    fill(path.b, 0, 256);
    fill(word.b, 0, 256);
    put_i32(state + 8, 4294967295u);
    put_i32(state + 20, (1u << m) - 1);
    put_i32(state + 24, m);
    put_i32(state + 28, allowed);
    walk_frozen_step(readings, kinds, rows.b, path.b, word.b, best, second, state, 0, 0);
}

/* float_walk::extend, crates/float_walk/src/lib.rt. The path of this penalty, extended by the
 * bit at the value: dropped if two full paths are held and the penalty is not below the
 * second's. */
static bytes8_4 float_walk_extend(bytes12_4 held, float penalty, float value, uint8_t bit) {
    bytes8_4 result;
    float after;
    after = penalty + float_rows_loss(value, bit);
    if (get_i32(held.b) < 2) {
        result.b[0] = 1;
        put_float(result.b + 4, after);
        return result;
    }
    if (get_float(held.b + 8) <= after) {
        result.b[0] = 0;
        return result;
    }
    result.b[0] = 1;
    put_float(result.b + 4, after);
    return result;
}

/* float_walk::finish, crates/float_walk/src/lib.rt. A full path is held: as best, when the old
 * best becomes second, or as second. */
static bytes12_4 float_walk_finish(unsigned char *path, unsigned char *best, unsigned char *second,
    uint64_t n, float penalty, bytes12_4 held) {
    bytes12_4 result;
    float r17, r31, r36;
    if (get_i32(held.b) == 0) {
        walk_copy(path, best, n);
        r17 = get_float(held.b + 8);
        put_i32(result.b, 1);
        put_float(result.b + 4, penalty);
        put_float(result.b + 8, r17);
        return result;
    }
    if (penalty < get_float(held.b + 4)) {
        walk_copy(best, second, n);
        walk_copy(path, best, n);
        r31 = get_float(held.b + 4);
        put_i32(result.b, 2);
        put_float(result.b + 4, penalty);
        put_float(result.b + 8, r31);
        return result;
    }
    walk_copy(path, second, n);
    r36 = get_float(held.b + 4);
    put_i32(result.b, 2);
    put_float(result.b + 4, r36);
    put_float(result.b + 8, penalty);
    return result;
}

/* float_walk::first_bit, crates/float_walk/src/lib.rt. The bit that the value speaks for. */
static uint8_t float_walk_first_bit(float value) {
    return value < 0.0f;
}

/* float_walk::value_at, crates/float_walk/src/lib.rt. The value at index i of the path. */
static float float_walk_value_at(unsigned char *readings, unsigned char *rows, unsigned char *path,
    unsigned char *word, unsigned char *state, uint64_t i) {
    uint32_t m;
    uint64_t was;
    m = get_i32(state + 24);
    was = walk_made_for(state, i);
    return float_memory_value(readings, rows, path, word, walk_wide(m), was, i);
}

/* float_walk::frozen_step, crates/float_walk/src/lib.rt. The path of the first `from` bits, of
 * this penalty, continues with 0 at each frozen index: up to an information index or the end, or
 * until an extension is dropped or not allowed. */
static bytes12_4 float_walk_frozen_step(unsigned char *readings, unsigned char *kinds,
    unsigned char *rows, unsigned char *path, unsigned char *word, unsigned char *best,
    unsigned char *second, unsigned char *state, bytes12_4 held, uint64_t from, float penalty) {
    bytes8_4 r23;
    float after, sum, value;
    uint64_t i;
    i = from;
    sum = penalty;
    while (!walk_full(state, i)) {
        if (kinds[i] != 0) {
            return float_walk_info_step(readings, kinds, rows, path, word, best, second, state,
                held, i, sum);
        }
        if (!walk_visit(state)) {
            return held;
        }
        value = float_walk_value_at(readings, rows, path, word, state, i);
        r23 = float_walk_extend(held, sum, value, 0);
        switch (r23.b[0]) {
        case 1:
            after = get_float(r23.b + 4);
            walk_put(path, i, 0);
            sum = after;
            i = i + 1;
            break;
        case 0:
            return held;
        default:
            unreachable();
        }
    }
    return float_walk_finish(path, best, second, i, sum, held);
}

/* float_walk::info_step, crates/float_walk/src/lib.rt. Both extensions at an information index
 * i: first the bit that the value speaks for, which adds nothing, so that it is not dropped;
 * when everything under it is done, the other. If the walk under the first needed a visit that
 * is not allowed, none is left for the other. */
static bytes12_4 float_walk_info_step(unsigned char *readings, unsigned char *kinds,
    unsigned char *rows, unsigned char *path, unsigned char *word, unsigned char *best,
    unsigned char *second, unsigned char *state, bytes12_4 held, uint64_t i, float penalty) {
    bytes12_4 under;
    bytes8_4 r23;
    float after, value;
    uint8_t first, other;
    if (!walk_visit(state)) {
        return held;
    }
    value = float_walk_value_at(readings, rows, path, word, state, i);
    first = float_walk_first_bit(value);
    other = (uint8_t)(1 - first);
    walk_put(path, i, first);
    under = float_walk_frozen_step(readings, kinds, rows, path, word, best, second, state, held,
        i + 1, penalty);
    if (!walk_visit(state)) {
        return under;
    }
    r23 = float_walk_extend(under, penalty, value, other);
    switch (r23.b[0]) {
    case 1:
        after = get_float(r23.b + 4);
        walk_put(path, i, other);
        return float_walk_frozen_step(readings, kinds, rows, path, word, best, second, state,
            under, i + 1, after);
    case 0:
        return under;
    default:
        unreachable();
    }
}

/* float_walk::walk, crates/float_walk/src/lib.rt. The whole walk under an allowance. The rows of
 * bits of the full paths that it holds are in best and second. */
static bytes12_4 float_walk_walk(unsigned char *readings, unsigned char *kinds, uint32_t m,
    uint32_t allowed, unsigned char *best, unsigned char *second, unsigned char *state) {
    bytes1024_4 rows;
    bytes12_4 none;
    bytes256_1 path, word;
    uint64_t r19, r22;
    r19 = 0;
    for (;;) {
        put_float(rows.b + r19, 0.0f);
        r22 = r19 + 4;
        r19 = r22;
        if (r22 == 1024) break;
    }
    fill(path.b, 0, 256);
    fill(word.b, 0, 256);
    put_i32(state + 20, (1u << m) - 1);
    put_i32(state + 24, m);
    put_i32(state + 28, allowed);
    put_i32(none.b, 0);
    put_float(none.b + 4, 0.0f);
    put_float(none.b + 8, 0.0f);
    return float_walk_frozen_step(readings, kinds, rows.b, path.b, word.b, best, second, state,
        none, 0, 0.0f);
}

#if defined(VECTORS)
#pragma GCC pop_options
#endif

/* search::copy_readings, crates/search/src/lib.rt */
static void search_copy_readings(slice from, slice to) {
    uint64_t i;
    i = 0;
    while (i < from.n) {
        put_i16(to.at + i * 2, get_i16(from.at + i * 2));
        i = i + 1;
    }
}

/* search::put_front, crates/search/src/lib.rt */
static void search_put_front(slice kinds, slice best, uint64_t m, slice bits, slice word) {
    uint64_t n;
    n = word.n;
    bit_rows_pick(slice_of(kinds.at, n), slice_of(best.at, n), bits);
    bit_rows_put_row(slice_of(best.at, n), word, m);
}

/* search::put_best, crates/search/src/lib.rt. The word of the best row, from the first bytes of
 * an array, and its information bits. */
static void search_put_best(unsigned char *kinds, unsigned char *best, uint64_t m, slice bits,
    slice word) {
    search_put_front(slice_of(kinds, 256), slice_of(best, 256), m, bits, word);
}

/* search::WithRunnerUp::refused, crates/search/src/lib.rt. A refusal shows no runner-up. */
static bytes280_8 search_WithRunnerUp_refused(bytes16_8 why) {
    bytes24_8 r2;
    bytes256_1 r3;
    bytes280_8 result;
    r2.b[0] = 1;
    copy(r2.b + 8, why.b, 16);
    fill(r3.b, 0, 256);
    copy(result.b, r2.b, 24);
    copy(result.b + 24, r3.b, 256);
    return result;
}

/* search::second_front, crates/search/src/lib.rt */
static void search_second_front(slice kinds, slice second, uint64_t n, uint64_t k,
    slice runner_up) {
    bit_rows_pick(slice_of(kinds.at, n), slice_of(second.at, n), slice_of(runner_up.at, k));
}

/* search::put_second, crates/search/src/lib.rt. The k information bits of the second row, from
 * the first n bytes of an array, in front of zeros. */
static void search_put_second(unsigned char *kinds, unsigned char *second, uint64_t n, uint64_t k,
    unsigned char *runner_up) {
    search_second_front(slice_of(kinds, 256), slice_of(second, 256), n, k, slice_of(runner_up,
        256));
}

/* search::search_kinds, crates/search/src/lib.rt. The search over the words of any row of 2^m
 * kinds. The walk holds its rows in arrays of its own, so that the buffers keep their contents
 * if nothing is found. The runner-up's bits are put into an array of zeros that is lent: an
 * answer with 256 bytes would be copied at each return. */
static bytes24_8 search_search_kinds(unsigned char *readings, unsigned char *kinds, uint32_t m,
    uint32_t allowed, slice bits, slice word, unsigned char *runner_up) {
    bytes16_8 r17, r24;
    bytes24_8 result;
    bytes256_1 best, second;
    bytes32_4 state;
    uint32_t gap, out, penalty, visits;
    uint64_t r34, r37;
    fill(best.b, 0, 256);
    fill(second.b, 0, 256);
    r34 = 0;
    for (;;) {
        put_i32(state.b + r34, 0);
        r37 = r34 + 4;
        r34 = r37;
        if (r37 == 32) break;
    }
    walk_walk(readings, kinds, m, allowed, best.b, second.b, state.b);
    out = get_i32(state.b + 16);
    if (out != 0) {
        r17.b[0] = 5;
        put_i32(r17.b + 4, allowed);
        result.b[0] = 1;
        copy(result.b + 8, r17.b, 16);
        return result;
    }
    penalty = get_i32(state.b + 4);
    visits = get_i32(state.b + 12);
    gap = get_i32(state.b + 8) - penalty;
    if (gap == 0) {
        r24.b[0] = 6;
        put_i32(r24.b + 4, penalty);
        put_i32(r24.b + 8, visits);
        result.b[0] = 1;
        copy(result.b + 8, r24.b, 16);
        return result;
    }
    search_put_best(kinds, best.b, (uint64_t)m, bits, word);
    search_put_second(kinds, second.b, word.n, bits.n, runner_up);
    result.b[0] = 0;
    put_i32(result.b + 4, penalty);
    put_i32(result.b + 8, gap);
    put_i32(result.b + 12, visits);
    return result;
}

/* search::search_sound, crates/search/src/lib.rt */
static bytes280_8 search_search_sound(bytes8_4 code, uint32_t allowed, slice readings, slice bits,
    slice word) {
    bytes24_8 result;
    bytes256_1 kinds, runner_up, r26;
    bytes280_8 result2;
    bytes512_2 own;
    uint64_t n, r27, r30;
    fill(kinds.b, 0, 256);
    r27 = 0;
    for (;;) {
        put_i16(own.b + r27, 0);
        r30 = r27 + 2;
        r27 = r30;
        if (r30 == 512) break;
    }
    n = code_Code_length(code);
    code_put_kinds(code, slice_of(kinds.b, n));
    search_copy_readings(readings, slice_of(own.b, n));
    fill(runner_up.b, 0, 256);
    result = search_search_kinds(own.b, kinds.b, get_i32(code.b + 4), allowed, bits, word,
        runner_up.b);
    r26 = runner_up;
    copy(result2.b, result.b, 24);
    copy(result2.b + 24, r26.b, 256);
    return result2;
}

/* search::search_within, crates/search/src/lib.rt. Writes the information bits and the word of
 * least penalty into the lent buffers, if no other word has that penalty and the walk needs no
 * more visits than allowed. */
static bytes280_8 search_search_within(uint32_t r, uint32_t m, uint32_t allowed, slice readings,
    slice bits, slice word) {
    bytes16_8 why;
    bytes24_8 r6;
    bytes280_8 r9;
    bytes8_4 code;
    r6 = code_admit(r, m, readings, bits.n, word.n);
    switch (r6.b[0]) {
    case 1:
        copy(why.b, r6.b + 8, 16);
        r9 = search_WithRunnerUp_refused(why);
        break;
    case 0:
        copy(code.b, r6.b + 4, 8);
        r9 = search_search_sound(code, allowed, readings, bits, word);
        break;
    default:
        unreachable();
    }
    return r9;
}

/* search::search, crates/search/src/lib.rt. The same, with the default allowance. */
static bytes280_8 search_search(uint32_t r, uint32_t m, slice readings, slice bits, slice word) {
    return search_search_within(r, m, 200000, readings, bits, word);
}

/* early::against, crates/early/src/lib.rt. What the reading loses by the bit. */
static uint32_t early_against(uint16_t reading, uint8_t bit) {
    return rows_loss((uint32_t)signed16(reading), bit);
}

/* early::doubt_at, crates/early/src/lib.rt. M minus the reading where the bit is 0, M plus the
 * reading where it is 1. */
static uint32_t early_doubt_at(uint32_t largest, uint16_t reading, uint8_t bit) {
    uint32_t r14, r22;
    if (bit == 0) {
        r14 = largest + early_against(reading, 0);
        return r14 - early_against(reading, 1);
    }
    r22 = largest + early_against(reading, 1);
    return r22 - early_against(reading, 0);
}

/* early::doubt, crates/early/src/lib.rt. The sum of these along the word. */
static uint32_t early_doubt(uint32_t largest, slice readings, slice word) {
    uint32_t sum;
    uint64_t j, r5;
    sum = 0;
    j = 0;
    r5 = word.n;
    while (j < r5) {
        sum = sum + early_doubt_at(largest, get_i16(readings.at + j * 2), word.at[j]);
        j = j + 1;
    }
    return sum;
}

/* early::larger, crates/early/src/lib.rt */
static uint32_t early_larger(uint32_t x, uint32_t y) {
    return x < y ? y : x;
}

/* early::penalty_only, crates/early/src/lib.rt. Only word, bits and penalty of a search are
 * given. */
static bytes24_8 early_penalty_only(bytes24_8 answer) {
    bytes16_8 r3;
    bytes24_8 r4;
    uint32_t why;
    switch (answer.b[0]) {
    case 0:
        why = get_i32(answer.b + 4);
        r4.b[0] = 0;
        put_i32(r4.b + 4, why);
        break;
    case 1:
        copy(r3.b, answer.b + 8, 16);
        r4.b[0] = 1;
        copy(r4.b + 8, r3.b, 16);
        break;
    default:
        unreachable();
    }
    return r4;
}

/* early::size, crates/early/src/lib.rt */
static uint32_t early_size(uint16_t reading) {
    uint32_t r3;
    r3 = early_against(reading, 0);
    return r3 + early_against(reading, 1);
}

/* early::largest_size, crates/early/src/lib.rt */
static uint32_t early_largest_size(slice readings) {
    uint32_t most;
    uint64_t j, r4;
    most = 0;
    j = 0;
    r4 = readings.n;
    while (j < r4) {
        most = early_larger(most, early_size(get_i16(readings.at + j * 2)));
        j = j + 1;
    }
    return most;
}

/* early::surely_right, crates/early/src/lib.rt. Whether the sum along the word is below M times
 * the code's distance, with the largest size as M. */
static bool early_surely_right(bytes8_4 code, slice readings, slice word) {
    uint32_t largest, r11;
    largest = early_largest_size(readings);
    r11 = early_doubt(largest, readings, word);
    return r11 < largest * (1u << (get_i32(code.b + 4) - get_i32(code.b)));
}

/* early::test_first, crates/early/src/lib.rt. The quick reading and its test, and the search if
 * the test does not pass. */
static bytes24_8 early_test_first(bytes8_4 code, uint32_t allowed, slice readings, slice read_bits,
    slice read_word, slice bits, slice word) {
    bytes24_8 result, result2;
    bytes280_8 answer;
    uint32_t penalty;
    penalty = quick_take_reading(code, readings, read_bits, read_word);
    if (early_surely_right(code, readings, read_word)) {
        bit_rows_copy(read_bits, bits);
        bit_rows_copy(read_word, word);
        result2.b[0] = 0;
        put_i32(result2.b + 4, penalty);
        return result2;
    }
    answer = search_search_sound(code, allowed, readings, bits, word);
    copy(result.b, answer.b, 24);
    return early_penalty_only(result);
}

/* early::answer_sound, crates/early/src/lib.rt. The quick reading gets arrays of its own, so
 * that the buffers keep their contents if the test does not pass and the search refuses. */
static bytes24_8 early_answer_sound(bytes8_4 code, uint32_t allowed, slice readings, slice bits,
    slice word) {
    bytes256_1 own_bits, own_word;
    slice read_bits, read_word;
    uint64_t k, n;
    fill(own_bits.b, 0, 256);
    fill(own_word.b, 0, 256);
    k = bits.n;
    n = word.n;
    read_bits.at = own_bits.b;
    read_bits.n = k;
    read_word.at = own_word.b;
    read_word.n = n;
    return early_test_first(code, allowed, readings, read_bits, read_word, bits, word);
}

/* early::early_within, crates/early/src/lib.rt. Writes the information bits and the word of
 * least penalty into the lent buffers: without a walk if the quick reading is surely right, else
 * if no other word has that penalty and the walk needs no more visits than allowed. */
static bytes24_8 early_early_within(uint32_t r, uint32_t m, uint32_t allowed, slice readings,
    slice bits, slice word) {
    bytes16_8 why;
    bytes24_8 r6, r9;
    bytes8_4 code;
    r6 = code_admit(r, m, readings, bits.n, word.n);
    switch (r6.b[0]) {
    case 1:
        copy(why.b, r6.b + 8, 16);
        r9.b[0] = 1;
        copy(r9.b + 8, why.b, 16);
        break;
    case 0:
        copy(code.b, r6.b + 4, 8);
        r9 = early_answer_sound(code, allowed, readings, bits, word);
        break;
    default:
        unreachable();
    }
    return r9;
}

/* early::early, crates/early/src/lib.rt. The same, with the default allowance. */
static bytes24_8 early_early(uint32_t r, uint32_t m, slice readings, slice bits, slice word) {
    return early_early_within(r, m, 200000, readings, bits, word);
}

#if defined(VECTORS)
#pragma GCC push_options
#pragma GCC optimize("O3")
#endif

/* first_order::cross, crates/first_order/src/lib.rt. ---- the transform The sums of the halves
 * of 2h entries in the first half, their differences in the second. */
static void first_order_cross(slice row, uint64_t h) {
    uint32_t a, b;
    uint64_t j;
    j = 0;
    while (j < h) {
        a = get_i32(row.at + j * 4);
        b = get_i32(row.at + (h + j) * 4);
        put_i32(row.at + j * 4, a + b);
        put_i32(row.at + (h + j) * 4, a - b);
        j = j + 1;
    }
}

/* first_order::double, crates/first_order/src/lib.rt. ---- the word The first h bits of the word
 * repeated after them, each plus the bit, modulo 2. */
static void first_order_double(slice word, uint64_t h, uint8_t bit) {
    uint64_t j;
    j = 0;
    while (j < h) {
        word.at[h + j] = (uint8_t)((uint8_t)(word.at[j] + bit) % 2);
        j = j + 1;
    }
}

/* first_order::four, crates/first_order/src/lib.rt. The transforms of four, eight and sixteen
 * entries. All their steps are constants: the compiler makes straight vector code of them. */
static void first_order_four(slice row) {
    first_order_cross(row, 2);
    first_order_cross(slice_of(row.at, UINT64_C(2)), 1);
    first_order_cross(slice_of(row.at + 8, row.n - 2), 1);
}

/* first_order::eight, crates/first_order/src/lib.rt */
static void first_order_eight(slice row) {
    first_order_cross(row, 4);
    first_order_four(slice_of(row.at, UINT64_C(4)));
    first_order_four(slice_of(row.at + 16, row.n - 4));
}

/* first_order::larger, crates/first_order/src/lib.rt */
static uint32_t first_order_larger(uint32_t a, uint32_t b) {
    return a < b ? b : a;
}

/* first_order::put_bits, crates/first_order/src/lib.rt. The digits of the place, the highest
 * first; then the sign plus their number of ones, modulo 2. */
static void first_order_put_bits(slice bits, uint64_t m, uint64_t place, uint32_t sign) {
    uint64_t above, i;
    i = 0;
    while (i < m) {
        above = place >> (m - 1 - i);
        bits.at[i] = (uint8_t)(above % 2);
        i = i + 1;
    }
    bits.at[m] = (uint8_t)(((uint32_t)ones64(place) % 2 + sign) % 2);
}

/* first_order::put_sums, crates/first_order/src/lib.rt */
static void first_order_put_sums(slice readings, slice row) {
    uint32_t x;
    uint64_t j, r4;
    j = 0;
    r4 = readings.n;
    while (j < r4) {
        x = (uint32_t)signed16(get_i16(readings.at + j * 2));
        put_i32(row.at + j * 4, x);
        j = j + 1;
    }
}

/* first_order::put_word, crates/first_order/src/lib.rt. The word of the place: it starts with
 * the sign and is doubled by each digit, the lowest first. */
static void first_order_put_word(slice word, uint64_t m, uint64_t place, uint8_t sign) {
    uint64_t above, h, p;
    *word.at = sign;
    h = 1;
    p = 0;
    while (p < m) {
        above = place >> p;
        first_order_double(word, h, (uint8_t)(above % 2));
        h = h + h;
        p = p + 1;
    }
}

/* first_order::sign_of, crates/first_order/src/lib.rt. The bit that an entry speaks for. */
static uint32_t first_order_sign_of(uint32_t x) {
    return either_i32(signed32(x) < 0, 1, 0);
}

/* first_order::sixteen, crates/first_order/src/lib.rt */
static void first_order_sixteen(slice row) {
    first_order_cross(row, 8);
    first_order_eight(slice_of(row.at, UINT64_C(8)));
    first_order_eight(slice_of(row.at + 32, row.n - 8));
}

/* first_order::size, crates/first_order/src/lib.rt. ---- looking at all entries */
static uint32_t first_order_size(uint32_t x) {
    return signed32(x) < 0 ? 0 - x : x;
}

/* first_order::top_key, crates/first_order/src/lib.rt. The largest size, with its place in the
 * lowest byte: a loop without a branch. */
static uint32_t first_order_top_key(slice row) {
    uint32_t j, most, n;
    most = 0;
    n = (uint32_t)row.n;
    j = 0;
    while (j < n) {
        most = first_order_larger(most, first_order_size(get_i32(row.at + (uint64_t)j * 4)) * 256
            + j);
        j = j + 1;
    }
    return most;
}

/* first_order::top_size, crates/first_order/src/lib.rt. The largest size. */
static uint32_t first_order_top_size(slice row) {
    uint32_t most;
    uint64_t j, r4;
    most = 0;
    j = 0;
    r4 = row.n;
    while (j < r4) {
        most = first_order_larger(most, first_order_size(get_i32(row.at + j * 4)));
        j = j + 1;
    }
    return most;
}

/* first_order::look, crates/first_order/src/lib.rt. The best and the next. The entry of the best
 * is set to 0, so that the next is the largest left. */
static bytes24_8 first_order_look(slice row) {
    bytes24_8 result;
    uint32_t key, second, sign;
    uint64_t place;
    key = first_order_top_key(row);
    place = (uint64_t)(key % 256);
    sign = first_order_sign_of(get_i32(row.at + place * 4));
    put_i32(row.at + place * 4, 0);
    second = first_order_top_size(row);
    put_i64(result.b, place);
    put_i32(result.b + 8, sign);
    put_i32(result.b + 12, key / 256);
    put_i32(result.b + 16, second);
    return result;
}

/* first_order::total_size, crates/first_order/src/lib.rt. The sum of the readings' sizes. */
static uint32_t first_order_total_size(slice readings) {
    uint32_t sum;
    uint64_t j, r4;
    sum = 0;
    j = 0;
    r4 = readings.n;
    while (j < r4) {
        sum = sum + first_order_size((uint32_t)signed16(get_i16(readings.at + j * 2)));
        j = j + 1;
    }
    return sum;
}

/* first_order::transform, crates/first_order/src/lib.rt. The transform of 2^m entries, in place. */
static void first_order_transform(slice row, uint64_t m) {
    uint64_t h;
    if (m == 4) {
        first_order_sixteen(row);
        return;
    }
    if (m == 0) return;
    h = row.n / 2;
    first_order_cross(row, h);
    first_order_transform(slice_of(row.at, h), m - 1);
    first_order_transform(slice_of(row.at + h * 4, row.n - h), m - 1);
}

/* first_order::find, crates/first_order/src/lib.rt. The largest entries of the transform, which
 * is made in the lent row. */
static bytes24_8 first_order_find(slice readings, slice row, uint64_t m) {
    first_order_put_sums(readings, row);
    first_order_transform(row, m);
    return first_order_look(row);
}

/* first_order::decode, crates/first_order/src/lib.rt. The work, once no test refuses. */
static bytes24_8 first_order_decode(uint64_t m, slice readings, slice bits, slice word) {
    bytes1024_4 sums;
    bytes16_8 r16;
    bytes24_8 result, seen;
    uint32_t penalty, r37, r80;
    uint64_t n, r22, r25;
    r22 = 0;
    for (;;) {
        put_i32(sums.b + r22, 0);
        r25 = r22 + 4;
        r22 = r25;
        if (r25 == 1024) break;
    }
    n = readings.n;
    seen = first_order_find(readings, slice_of(sums.b, n), m);
    r37 = first_order_total_size(readings);
    penalty = (r37 - get_i32(seen.b + 12)) / 2;
    if (get_i32(seen.b + 12) == get_i32(seen.b + 16)) {
        r16.b[0] = 6;
        put_i32(r16.b + 4, penalty);
        put_i32(r16.b + 8, 0);
        result.b[0] = 1;
        copy(result.b + 8, r16.b, 16);
        return result;
    }
    first_order_put_bits(bits, m, get_i64(seen.b), get_i32(seen.b + 8));
    first_order_put_word(word, m, get_i64(seen.b), (uint8_t)get_i32(seen.b + 8));
    r80 = (get_i32(seen.b + 12) - get_i32(seen.b + 16)) / 2;
    result.b[0] = 0;
    put_i32(result.b + 4, penalty);
    put_i32(result.b + 8, r80);
    put_i32(result.b + 12, 0);
    return result;
}

/* first_order::first_order, crates/first_order/src/lib.rt. Writes the information bits and the
 * word of least penalty of RM(1,m), if no other word has that penalty. There are no visits. */
static bytes24_8 first_order_first_order(uint32_t r, uint32_t m, slice readings, slice bits,
    slice word) {
    bytes16_8 why, r7;
    bytes24_8 result, r8, r11;
    bytes8_4 code;
    if (r != 1) {
        r7.b[0] = 0;
        result.b[0] = 1;
        copy(result.b + 8, r7.b, 16);
        return result;
    }
    r8 = code_admit(1, m, readings, bits.n, word.n);
    switch (r8.b[0]) {
    case 1:
        copy(why.b, r8.b + 8, 16);
        r11.b[0] = 1;
        copy(r11.b + 8, why.b, 16);
        break;
    case 0:
        copy(code.b, r8.b + 4, 8);
        r11 = first_order_decode((uint64_t)get_i32(code.b + 4), readings, bits, word);
        break;
    default:
        unreachable();
    }
    return r11;
}

#if defined(VECTORS)
#pragma GCC pop_options
#endif

/* float_search::copy_readings, crates/float_search/src/lib.rt */
static void float_search_copy_readings(slice from, slice to) {
    uint64_t i;
    i = 0;
    while (i < from.n) {
        put_float(to.at + i * 4, get_float(from.at + i * 4));
        i = i + 1;
    }
}

/* float_search::whole, crates/float_search/src/lib.rt. The count that a penalty is. */
static uint32_t float_search_whole(float x) {
    return (uint32_t)x;
}

/* float_search::search_kinds, crates/float_search/src/lib.rt. The search over the words of any
 * row of 2^m kinds. The walk holds its rows in arrays of its own, so that the buffers keep their
 * contents if nothing is found; the runner-up's bits are put into an array of zeros that is
 * lent. */
static bytes24_8 float_search_search_kinds(unsigned char *readings, unsigned char *kinds,
    uint32_t m, uint32_t allowed, slice bits, slice word, unsigned char *runner_up) {
    bytes12_4 end;
    bytes16_8 r18, r22;
    bytes24_8 result;
    bytes256_1 best, second;
    bytes32_4 state;
    uint32_t gap, out, penalty, visits;
    uint64_t r32, r35;
    fill(best.b, 0, 256);
    fill(second.b, 0, 256);
    r32 = 0;
    for (;;) {
        put_i32(state.b + r32, 0);
        r35 = r32 + 4;
        r32 = r35;
        if (r35 == 32) break;
    }
    end = float_walk_walk(readings, kinds, m, allowed, best.b, second.b, state.b);
    out = get_i32(state.b + 16);
    if (out != 0) {
        r18.b[0] = 5;
        put_i32(r18.b + 4, allowed);
        result.b[0] = 1;
        copy(result.b + 8, r18.b, 16);
        return result;
    }
    visits = get_i32(state.b + 12);
    penalty = float_search_whole(get_float(end.b + 4));
    gap = float_search_whole(get_float(end.b + 8) - get_float(end.b + 4));
    if (gap == 0) {
        r22.b[0] = 6;
        put_i32(r22.b + 4, penalty);
        put_i32(r22.b + 8, visits);
        result.b[0] = 1;
        copy(result.b + 8, r22.b, 16);
        return result;
    }
    search_put_best(kinds, best.b, (uint64_t)m, bits, word);
    search_put_second(kinds, second.b, word.n, bits.n, runner_up);
    result.b[0] = 0;
    put_i32(result.b + 4, penalty);
    put_i32(result.b + 8, gap);
    put_i32(result.b + 12, visits);
    return result;
}

/* float_search::search_sound, crates/float_search/src/lib.rt */
static bytes280_8 float_search_search_sound(bytes8_4 code, uint32_t allowed, slice readings,
    slice bits, slice word) {
    bytes1024_4 own;
    bytes24_8 result;
    bytes256_1 kinds, runner_up, r26;
    bytes280_8 result2;
    uint64_t n, r27, r30;
    fill(kinds.b, 0, 256);
    r27 = 0;
    for (;;) {
        put_float(own.b + r27, 0.0f);
        r30 = r27 + 4;
        r27 = r30;
        if (r30 == 1024) break;
    }
    n = code_Code_length(code);
    code_put_kinds(code, slice_of(kinds.b, n));
    float_search_copy_readings(readings, slice_of(own.b, n));
    fill(runner_up.b, 0, 256);
    result = float_search_search_kinds(own.b, kinds.b, get_i32(code.b + 4), allowed, bits, word,
        runner_up.b);
    r26 = runner_up;
    copy(result2.b, result.b, 24);
    copy(result2.b + 24, r26.b, 256);
    return result2;
}

/* float_search::search_float_within, crates/float_search/src/lib.rt. What the search reports and
 * writes for the whole numbers that the readings are. A float that is no whole number is refused
 * as a reading out of range is. */
static bytes280_8 float_search_search_float_within(uint32_t r, uint32_t m, uint32_t allowed,
    slice readings, slice bits, slice word) {
    bytes16_8 why;
    bytes24_8 r6;
    bytes280_8 r9;
    bytes8_4 code;
    r6 = float_code_admit(r, m, readings, bits.n, word.n);
    switch (r6.b[0]) {
    case 1:
        copy(why.b, r6.b + 8, 16);
        r9 = search_WithRunnerUp_refused(why);
        break;
    case 0:
        copy(code.b, r6.b + 4, 8);
        r9 = float_search_search_sound(code, allowed, readings, bits, word);
        break;
    default:
        unreachable();
    }
    return r9;
}

/* float_search::search_float, crates/float_search/src/lib.rt. The same, with the default
 * allowance. */
static bytes280_8 float_search_search_float(uint32_t r, uint32_t m, slice readings, slice bits,
    slice word) {
    return float_search_search_float_within(r, m, 200000, readings, bits, word);
}

/* record::code_of, crates/record/src/lib.rt */
static bytes12_4 record_code_of(uint8_t first) {
    uint32_t first2;
    first2 = (uint32_t)first;
    return code_Code_new(first2 % 16, first2 / 16);
}

/* record::framed, crates/record/src/lib.rt. Whether all bytes of the record are there, and its
 * pad bits are 0. */
static bytes24_8 record_framed(slice s, bytes8_4 code) {
    bytes16_8 r7, r12;
    bytes24_8 result;
    if (s.n - 1 < packing_part_length(code)) {
        r7.b[0] = 7;
        result.b[0] = 1;
        copy(result.b + 8, r7.b, 16);
        return result;
    }
    if (get_i32(code.b + 4) == 0) {
        if ((uint8_t)(s.at[2] % 16) != 0) {
            r12.b[0] = 8;
            result.b[0] = 1;
            copy(result.b + 8, r12.b, 16);
            return result;
        }
    }
    result.b[0] = 0;
    copy(result.b + 4, code.b, 8);
    return result;
}

/* record::frame, crates/record/src/lib.rt. The refusals 1, 8 and 9. */
static bytes24_8 record_frame(slice s) {
    bytes12_4 r6;
    bytes16_8 r5, r10;
    bytes24_8 result, r9;
    bytes8_4 code;
    if (s.n == 0) {
        r5.b[0] = 7;
        result.b[0] = 1;
        copy(result.b + 8, r5.b, 16);
        return result;
    }
    r6 = record_code_of(*s.at);
    switch (r6.b[0]) {
    case 0:
        copy(code.b, r6.b + 4, 8);
        r9 = record_framed(s, code);
        break;
    case 1:
        r10.b[0] = 0;
        r9.b[0] = 1;
        copy(r9.b + 8, r10.b, 16);
        break;
    default:
        unreachable();
    }
    return r9;
}

/* record::header_of, crates/record/src/lib.rt. The code of the record that the bytes begin with,
 * or the refusal. */
static bytes24_8 record_header_of(slice s) {
    return record_frame(s);
}

/* record::packed, crates/record/src/lib.rt. The part of the bytes that holds the packed values:
 * all of the record's bytes after its first. Empty on refusal. */
static bytes16_8 record_packed(slice s) {
    bytes16_8 result;
    bytes24_8 r4;
    bytes8_4 code;
    slice r5;
    uint64_t end;
    r4 = record_frame(s);
    switch (r4.b[0]) {
    case 0:
        copy(code.b, r4.b + 4, 8);
        end = 1 + packing_part_length(code);
        r5.at = s.at + 1;
        r5.n = end - 1;
        break;
    case 1:
        r5.at = s.at;
        r5.n = 0;
        break;
    default:
        unreachable();
    }
    put_slice(result.b, r5);
    return result;
}

/* record::put_record, crates/record/src/lib.rt. The record's first byte, and its packed part. */
static void record_put_record(bytes8_4 code, slice readings, slice bytes) {
    uint64_t end;
    end = bytes.n;
    *bytes.at = (uint8_t)(16 * get_i32(code.b + 4) + get_i32(code.b));
    packing_put_packed(readings, slice_of(bytes.at + 1, end - 1));
}

/* record::record_length, crates/record/src/lib.rt. How many bytes a record has, by its first
 * byte; 0 if that byte is refused. */
static uint64_t record_record_length(uint8_t first) {
    bytes12_4 r2;
    bytes8_4 code;
    uint64_t r3;
    r2 = record_code_of(first);
    switch (r2.b[0]) {
    case 0:
        copy(code.b, r2.b + 4, 8);
        r3 = 1 + packing_part_length(code);
        break;
    case 1:
        r3 = 0;
        break;
    default:
        unreachable();
    }
    return r3;
}

/* record::search_framed, crates/record/src/lib.rt. The same for a record whose frame is known:
 * its code is sound, and it is complete. */
static bytes280_8 record_search_framed(slice s, bytes8_4 code, uint32_t allowed, slice bits,
    slice word) {
    bytes512_2 readings;
    uint64_t end, n, r25, r28;
    r25 = 0;
    for (;;) {
        put_i16(readings.b + r25, 0);
        r28 = r25 + 2;
        r25 = r28;
        if (r28 == 512) break;
    }
    n = code_Code_length(code);
    end = 1 + packing_part_length(code);
    packing_put_readings(slice_of(s.at + 1, end - 1), slice_of(readings.b, n));
    return search_search_within(get_i32(code.b), get_i32(code.b + 4), allowed, slice_of(readings.b,
        n), bits, word);
}

/* record::search_record, crates/record/src/lib.rt. Searches the record that the bytes begin
 * with. The refusals are 1, 8, 9, 3, 6, 7, in this order. */
static bytes280_8 record_search_record(slice s, uint32_t allowed, slice bits, slice word) {
    bytes16_8 why;
    bytes24_8 r6;
    bytes280_8 r7;
    bytes8_4 code;
    r6 = record_frame(s);
    switch (r6.b[0]) {
    case 0:
        copy(code.b, r6.b + 4, 8);
        r7 = record_search_framed(s, code, allowed, bits, word);
        break;
    case 1:
        copy(why.b, r6.b + 8, 16);
        r7 = search_WithRunnerUp_refused(why);
        break;
    default:
        unreachable();
    }
    return r7;
}

/* record::writable, crates/record/src/lib.rt. The tests of the writer: 1, 2, 4, then 3, for a
 * buffer of this many bytes. No sum here wraps. */
static bytes24_8 record_writable(uint32_t r, uint32_t m, slice readings, uint64_t bytes,
    uint64_t place) {
    bytes12_4 r5;
    bytes16_8 r6, r9, r10, r11, r14;
    bytes24_8 result;
    bytes8_4 code;
    uint64_t bad, n;
    r5 = code_Code_new(r, m);
    switch (r5.b[0]) {
    case 0:
        copy(code.b, r5.b + 4, 8);
        n = code_Code_length(code);
        if (readings.n != n) {
            r9.b[0] = 1;
            result.b[0] = 1;
            copy(result.b + 8, r9.b, 16);
            return result;
        }
        bad = code_first_bad_record_reading(readings);
        if (bad < n) {
            r10.b[0] = 3;
            put_i64(r10.b + 8, bad);
            result.b[0] = 1;
            copy(result.b + 8, r10.b, 16);
            return result;
        }
        if (bytes < place) {
            r11.b[0] = 2;
            result.b[0] = 1;
            copy(result.b + 8, r11.b, 16);
            return result;
        }
        if (bytes - place < 1 + packing_part_length(code)) {
            r14.b[0] = 2;
            result.b[0] = 1;
            copy(result.b + 8, r14.b, 16);
            return result;
        }
        result.b[0] = 0;
        copy(result.b + 4, code.b, 8);
        return result;
    case 1:
        r6.b[0] = 0;
        result.b[0] = 1;
        copy(result.b + 8, r6.b, 16);
        return result;
    default:
        unreachable();
    }
}

/* record::write, crates/record/src/lib.rt. Writes the record of the readings into the lent
 * buffer, from the place on. All other bytes stay. */
static bytes24_8 record_write(uint32_t r, uint32_t m, slice readings, slice buffer,
    uint64_t place) {
    bytes16_8 why;
    bytes24_8 r6, r8;
    bytes8_4 code;
    uint64_t end;
    r6 = record_writable(r, m, readings, buffer.n, place);
    switch (r6.b[0]) {
    case 0:
        copy(code.b, r6.b + 4, 8);
        end = place + (1 + packing_part_length(code));
        record_put_record(code, readings, slice_of(buffer.at + place, end - place));
        r8.b[0] = 0;
        put_i64(r8.b + 8, end);
        break;
    case 1:
        copy(why.b, r6.b + 8, 16);
        r8.b[0] = 1;
        copy(r8.b + 8, why.b, 16);
        break;
    default:
        unreachable();
    }
    return r8;
}

/* index::entries_for, crates/index/src/lib.rt. How many entries this many records have. No sum
 * here could wrap. */
static uint64_t index_entries_for(uint64_t records) {
    return records / 16 + (records % 16 + (UINT64_C(16) - 1)) / 16;
}

/* index::full, crates/index/src/lib.rt. Whether the table has no room for the entry of one more
 * record, or the count cannot grow. */
static bool index_full(bytes16_8 index, uint64_t entries) {
    if (get_i64(index.b) == UINT64_C(18446744073709551615)) {
        return true;
    }
    if (get_i64(index.b) % 16 == 0) {
        return entries <= get_i64(index.b) / 16;
    }
    return false;
}

/* index::not_appended, crates/index/src/lib.rt. Nothing is appended: the writer's own refusal,
 * or 3 because there is no room in the table. */
static bytes24_8 index_not_appended(bytes24_8 tests) {
    bytes16_8 why, r4;
    bytes24_8 r3;
    switch (tests.b[0]) {
    case 0:
        r4.b[0] = 2;
        r3.b[0] = 1;
        copy(r3.b + 8, r4.b, 16);
        break;
    case 1:
        copy(why.b, tests.b + 8, 16);
        r3.b[0] = 1;
        copy(r3.b + 8, why.b, 16);
        break;
    default:
        unreachable();
    }
    return r3;
}

/* index::part_after, crates/index/src/lib.rt. The place after the first byte of a record that
 * starts here. */
static uint64_t index_part_after(bytes24_8 header, uint64_t start) {
    uint64_t r2;
    switch (header.b[0]) {
    case 0:
        r2 = start + 1;
        break;
    case 1:
        r2 = 0;
        break;
    default:
        unreachable();
    }
    return r2;
}

/* index::put_entry, crates/index/src/lib.rt. Record w starts here: its entry, if it has one. */
static void index_put_entry(slice table, uint64_t w, uint64_t start) {
    if (w % 16 == 0) {
        put_i64(table.at + (w / 16) * 8, start);
    }
}

/* index::append, crates/index/src/lib.rt. Writes a record at the end of the used part, and its
 * entry if its number is a multiple of 16. The room in both is tested before a byte is written. */
static bytes24_8 index_append(bytes16_8 index, uint32_t r, uint32_t m, slice readings,
    slice capture, slice table) {
    bytes16_8 why, r18;
    bytes24_8 r9, r11, r14;
    uint64_t next;
    if (index_full(index, table.n)) {
        r9 = record_writable(r, m, readings, capture.n, get_i64(index.b + 8));
        return index_not_appended(r9);
    }
    r11 = record_write(r, m, readings, capture, get_i64(index.b + 8));
    switch (r11.b[0]) {
    case 0:
        next = get_i64(r11.b + 8);
        index_put_entry(table, get_i64(index.b), get_i64(index.b + 8));
        put_i64(r18.b, get_i64(index.b) + 1);
        put_i64(r18.b + 8, next);
        r14.b[0] = 0;
        copy(r14.b + 8, r18.b, 16);
        break;
    case 1:
        copy(why.b, r11.b + 8, 16);
        r14.b[0] = 1;
        copy(r14.b + 8, why.b, 16);
        break;
    default:
        unreachable();
    }
    return r14;
}

/* index::put_entries, crates/index/src/lib.rt. The entries of a capture of whole records, in a
 * table with room for them. */
static void index_put_entries(slice capture, slice table) {
    uint64_t at, w;
    at = 0;
    w = 0;
    while (at < capture.n) {
        index_put_entry(table, w, at);
        at = at + record_record_length(capture.at[at]);
        w = w + 1;
    }
}

/* index::step, crates/index/src/lib.rt. The place after the record that starts here, by its
 * first byte and the capture's length alone. */
static bytes24_8 index_step(slice capture, uint64_t at) {
    bytes16_8 r5, r8, r10;
    bytes24_8 result;
    uint64_t bytes;
    if (capture.n <= at) {
        r5.b[0] = 7;
        result.b[0] = 1;
        copy(result.b + 8, r5.b, 16);
        return result;
    }
    bytes = record_record_length(capture.at[at]);
    if (bytes == 0) {
        r8.b[0] = 0;
        result.b[0] = 1;
        copy(result.b + 8, r8.b, 16);
        return result;
    }
    if (capture.n - at < bytes) {
        r10.b[0] = 7;
        result.b[0] = 1;
        copy(result.b + 8, r10.b, 16);
        return result;
    }
    result.b[0] = 0;
    put_i64(result.b + 8, at + bytes);
    return result;
}

/* index::count, crates/index/src/lib.rt. How many records there are. */
static bytes24_8 index_count(slice capture) {
    bytes16_8 why;
    bytes24_8 result, r8;
    uint64_t at, next, records;
    at = 0;
    records = 0;
    while (at < capture.n) {
        r8 = index_step(capture, at);
        switch (r8.b[0]) {
        case 0:
            next = get_i64(r8.b + 8);
            at = next;
            records = records + 1;
            break;
        case 1:
            copy(why.b, r8.b + 8, 16);
            result.b[0] = 1;
            copy(result.b + 8, why.b, 16);
            return result;
        default:
            unreachable();
        }
    }
    result.b[0] = 0;
    put_i64(result.b + 8, records);
    return result;
}

/* index::make, crates/index/src/lib.rt. Makes the index of a capture: all of it is looked at
 * before an entry is written. Entries past those that it makes stay. */
static bytes24_8 index_make(slice capture, slice table) {
    bytes16_8 why, r11, r14;
    bytes24_8 result, r6, r7;
    uint64_t records, used;
    r6 = index_count(capture);
    switch (r6.b[0]) {
    case 0:
        records = get_i64(r6.b + 8);
        if (table.n < index_entries_for(records)) {
            r11.b[0] = 2;
            result.b[0] = 1;
            copy(result.b + 8, r11.b, 16);
            return result;
        }
        index_put_entries(capture, table);
        used = capture.n;
        put_i64(r14.b, records);
        put_i64(r14.b + 8, used);
        r7.b[0] = 0;
        copy(r7.b + 8, r14.b, 16);
        break;
    case 1:
        copy(why.b, r6.b + 8, 16);
        r7.b[0] = 1;
        copy(r7.b + 8, why.b, 16);
        break;
    default:
        unreachable();
    }
    return r7;
}

/* index::pass, crates/index/src/lib.rt. The place after this many records. */
static bytes24_8 index_pass(slice capture, uint64_t count, uint64_t start) {
    bytes16_8 why;
    bytes24_8 result, r7;
    uint64_t at, left, next;
    at = start;
    left = count;
    while (0 < left) {
        r7 = index_step(capture, at);
        switch (r7.b[0]) {
        case 0:
            next = get_i64(r7.b + 8);
            at = next;
            left = left - 1;
            break;
        case 1:
            copy(why.b, r7.b + 8, 16);
            result.b[0] = 1;
            copy(result.b + 8, why.b, 16);
            return result;
        default:
            unreachable();
        }
    }
    result.b[0] = 0;
    put_i64(result.b + 8, at);
    return result;
}

/* index::start_of, crates/index/src/lib.rt. Where record w starts: from the entry of its block
 * over the records before it. */
static bytes24_8 index_start_of(slice capture, slice table, uint64_t w) {
    bytes16_8 why, r9, r12, r17;
    bytes24_8 result, r13, r14;
    uint64_t entry, start;
    if (table.n <= w / 16) {
        r9.b[0] = 9;
        result.b[0] = 1;
        copy(result.b + 8, r9.b, 16);
        return result;
    }
    entry = get_i64(table.at + (w / 16) * 8);
    if (capture.n <= entry) {
        r12.b[0] = 7;
        result.b[0] = 1;
        copy(result.b + 8, r12.b, 16);
        return result;
    }
    r13 = index_pass(capture, w % 16, entry);
    switch (r13.b[0]) {
    case 0:
        start = get_i64(r13.b + 8);
        if (start == capture.n) {
            r17.b[0] = 9;
            result.b[0] = 1;
            copy(result.b + 8, r17.b, 16);
            return result;
        }
        r14.b[0] = 0;
        put_i64(r14.b + 8, start);
        break;
    case 1:
        copy(why.b, r13.b + 8, 16);
        r14.b[0] = 1;
        copy(r14.b + 8, why.b, 16);
        break;
    default:
        unreachable();
    }
    return r14;
}

/* index::locate, crates/index/src/lib.rt. What record w says, and where its packed part is. */
static bytes40_8 index_locate(slice capture, slice table, uint64_t w) {
    bytes16_8 why, r14;
    bytes24_8 header, r8, r18;
    bytes40_8 r9;
    uint64_t at, length, start;
    r8 = index_start_of(capture, table, w);
    switch (r8.b[0]) {
    case 0:
        at = get_i64(r8.b + 8);
        header = record_header_of(slice_of(capture.at + at, capture.n - at));
        r14 = record_packed(slice_of(capture.at + at, capture.n - at));
        length = get_i64(r14.b + 8);
        start = index_part_after(header, at);
        copy(r9.b, header.b, 24);
        put_i64(r9.b + 24, start);
        put_i64(r9.b + 32, length);
        break;
    case 1:
        copy(why.b, r8.b + 8, 16);
        r18.b[0] = 1;
        copy(r18.b + 8, why.b, 16);
        copy(r9.b, r18.b, 24);
        put_i64(r9.b + 24, 0);
        put_i64(r9.b + 32, 0);
        break;
    default:
        unreachable();
    }
    return r9;
}

/* index::whole, crates/index/src/lib.rt. Steps over the whole records at the front, until the
 * capture ends or a step is refused. */
static bytes24_8 index_whole(slice capture) {
    bytes16_8 why, r9, r11;
    bytes24_8 result, r8;
    uint32_t r29;
    uint64_t at, next, records;
    at = 0;
    records = 0;
    while (at < capture.n) {
        r8 = index_step(capture, at);
        switch (r8.b[0]) {
        case 0:
            next = get_i64(r8.b + 8);
            at = next;
            records = records + 1;
            break;
        case 1:
            copy(why.b, r8.b + 8, 16);
            put_i64(r9.b, records);
            put_i64(r9.b + 8, at);
            r29 = code_Refusal_number(why);
            copy(result.b, r9.b, 16);
            put_i32(result.b + 16, r29);
            return result;
        default:
            unreachable();
        }
    }
    put_i64(r11.b, records);
    put_i64(r11.b + 8, at);
    copy(result.b, r11.b, 16);
    put_i32(result.b + 16, 0);
    return result;
}

/* index::front, crates/index/src/lib.rt. Makes the index of the longest part at the front of a
 * capture that holds whole records, whatever follows it. Entries past those that it makes stay. */
static bytes32_8 index_front(slice capture, slice table) {
    bytes16_8 r7;
    bytes24_8 front;
    bytes32_8 result;
    front = index_whole(capture);
    if (table.n < index_entries_for(get_i64(front.b))) {
        r7.b[0] = 2;
        result.b[0] = 1;
        copy(result.b + 8, r7.b, 16);
        return result;
    }
    index_put_entries(slice_of(capture.at, get_i64(front.b + 8)), table);
    result.b[0] = 0;
    copy(result.b + 8, front.b, 24);
    return result;
}

/* reorder::is_long, crates/reorder/src/lib.rt. Whether a table of this many bytes is m by m, and
 * a row of this many m long. */
static bool reorder_is_long(uint32_t m, uint64_t table, uint64_t row) {
    uint64_t m2;
    m2 = (uint64_t)m;
    return (table == m2 * m2) & (row == m2);
}

/* reorder::length, crates/reorder/src/lib.rt. The number of positions, 0 if m is too large. */
static uint64_t reorder_length(uint32_t m) {
    if (8 < m) {
        return 0;
    }
    return UINT64_C(1) << (uint64_t)m;
}

/* reorder::product_long, crates/reorder/src/lib.rt */
static bytes24_8 reorder_product_long(uint64_t m, slice table1, slice row1, slice table2,
    slice row2, slice out, slice outrow) {
    bytes16_8 r13, r16;
    bytes24_8 result;
    bytes256_1 images;
    uint8_t added;
    fill(images.b, 0, 256);
    if (!images_is_map(m, table2, row2, slice_of(images.b, 256))) {
        r13.b[0] = 10;
        result.b[0] = 1;
        copy(result.b + 8, r13.b, 16);
        return result;
    }
    if (!images_is_map(m, table1, row1, slice_of(images.b, 256))) {
        r16.b[0] = 10;
        result.b[0] = 1;
        copy(result.b + 8, r16.b, 16);
        return result;
    }
    added = images_column(row1, 1, 0, m);
    images_put_product(m, slice_of(images.b, 256), added, table2, row2, out, outrow);
    result.b[0] = 0;
    return result;
}

/* reorder::reorder_long, crates/reorder/src/lib.rt. The tests 11 and 4, and the work, if all
 * lengths are right. */
static bytes24_8 reorder_reorder_long(uint64_t m, slice table, slice row, slice readings,
    slice out) {
    bytes16_8 r11, r13;
    bytes24_8 result;
    bytes256_1 images;
    uint64_t place;
    fill(images.b, 0, 256);
    if (!images_is_map(m, table, row, slice_of(images.b, 256))) {
        r11.b[0] = 10;
        result.b[0] = 1;
        copy(result.b + 8, r11.b, 16);
        return result;
    }
    place = code_first_bad_reading(readings);
    if (place < readings.n) {
        r13.b[0] = 3;
        put_i64(r13.b + 8, place);
        result.b[0] = 1;
        copy(result.b + 8, r13.b, 16);
        return result;
    }
    images_move_readings(slice_of(images.b, 256), images_column(row, 1, 0, m), readings, out);
    result.b[0] = 0;
    return result;
}

/* reorder::reorder_word_long, crates/reorder/src/lib.rt */
static bytes24_8 reorder_reorder_word_long(uint64_t m, slice table, slice row, slice word,
    slice out) {
    bytes16_8 r11, r13;
    bytes24_8 result;
    bytes256_1 images;
    uint64_t place;
    fill(images.b, 0, 256);
    if (!images_is_map(m, table, row, slice_of(images.b, 256))) {
        r11.b[0] = 10;
        result.b[0] = 1;
        copy(result.b + 8, r11.b, 16);
        return result;
    }
    place = code_first_bad_bit(word);
    if (place < word.n) {
        r13.b[0] = 3;
        put_i64(r13.b + 8, place);
        result.b[0] = 1;
        copy(result.b + 8, r13.b, 16);
        return result;
    }
    images_move_bits(slice_of(images.b, 256), images_column(row, 1, 0, m), word, out);
    result.b[0] = 0;
    return result;
}

/* reorder::test_sizes, crates/reorder/src/lib.rt. The tests 1 to 3 in their order. */
static bytes24_8 reorder_test_sizes(uint32_t m, bool inputs, bool outputs) {
    bytes16_8 r2, r3, r4;
    bytes24_8 result;
    if (8 < m) {
        r2.b[0] = 0;
        result.b[0] = 1;
        copy(result.b + 8, r2.b, 16);
        return result;
    }
    if (!inputs) {
        r3.b[0] = 1;
        result.b[0] = 1;
        copy(result.b + 8, r3.b, 16);
        return result;
    }
    if (!outputs) {
        r4.b[0] = 2;
        result.b[0] = 1;
        copy(result.b + 8, r4.b, 16);
        return result;
    }
    result.b[0] = 0;
    return result;
}

/* reorder::product_map, crates/reorder/src/lib.rt. Writes the map that reorders as the first map
 * and then the second do. */
static bytes24_8 reorder_product_map(uint32_t m, slice table1, slice row1, slice table2,
    slice row2, slice out, slice outrow) {
    bytes16_8 why;
    bytes24_8 r16, r17;
    uint8_t inputs, outputs, r29;
    r29 = reorder_is_long(m, table1.n, row1.n);
    inputs = (uint8_t)(r29 & reorder_is_long(m, table2.n, row2.n));
    outputs = reorder_is_long(m, out.n, outrow.n);
    r16 = reorder_test_sizes(m, inputs, outputs);
    switch (r16.b[0]) {
    case 1:
        copy(why.b, r16.b + 8, 16);
        r17.b[0] = 1;
        copy(r17.b + 8, why.b, 16);
        break;
    case 0:
        r17 = reorder_product_long((uint64_t)m, table1, row1, table2, row2, out, outrow);
        break;
    default:
        unreachable();
    }
    return r17;
}

/* reorder::reorder, crates/reorder/src/lib.rt. Writes the readings in the map's order: position
 * j gets the reading at A·j + b. */
static bytes24_8 reorder_reorder(uint32_t m, slice table, slice row, slice readings, slice out) {
    bytes16_8 why;
    bytes24_8 r13, r14;
    uint64_t n;
    uint8_t inputs;
    n = reorder_length(m);
    inputs = (uint8_t)(reorder_is_long(m, table.n, row.n) & (readings.n == n));
    r13 = reorder_test_sizes(m, inputs, out.n == n);
    switch (r13.b[0]) {
    case 1:
        copy(why.b, r13.b + 8, 16);
        r14.b[0] = 1;
        copy(r14.b + 8, why.b, 16);
        break;
    case 0:
        r14 = reorder_reorder_long((uint64_t)m, table, row, readings, out);
        break;
    default:
        unreachable();
    }
    return r14;
}

/* reorder::reorder_word, crates/reorder/src/lib.rt. The same on bits, one per byte. */
static bytes24_8 reorder_reorder_word(uint32_t m, slice table, slice row, slice word, slice out) {
    bytes16_8 why;
    bytes24_8 r13, r14;
    uint64_t n;
    uint8_t inputs;
    n = reorder_length(m);
    inputs = (uint8_t)(reorder_is_long(m, table.n, row.n) & (word.n == n));
    r13 = reorder_test_sizes(m, inputs, out.n == n);
    switch (r13.b[0]) {
    case 1:
        copy(why.b, r13.b + 8, 16);
        r14.b[0] = 1;
        copy(r14.b + 8, why.b, 16);
        break;
    case 0:
        r14 = reorder_reorder_word_long((uint64_t)m, table, row, word, out);
        break;
    default:
        unreachable();
    }
    return r14;
}

/* reorder::undo_long, crates/reorder/src/lib.rt */
static bytes24_8 reorder_undo_long(uint64_t m, slice table, slice row, slice out, slice outrow) {
    bytes16_8 r13;
    bytes24_8 result;
    bytes256_1 images, places;
    fill(images.b, 0, 256);
    fill(places.b, 0, 256);
    if (!images_take_map(m, table, row, slice_of(images.b, 256), slice_of(places.b, 256))) {
        r13.b[0] = 10;
        result.b[0] = 1;
        copy(result.b + 8, r13.b, 16);
        return result;
    }
    images_put_undo(m, slice_of(places.b, 256), row, out, outrow);
    result.b[0] = 0;
    return result;
}

/* reorder::undo_map, crates/reorder/src/lib.rt. Writes the map that undoes the given one. */
static bytes24_8 reorder_undo_map(uint32_t m, slice table, slice row, slice out, slice outrow) {
    bytes16_8 why;
    bytes24_8 r10, r11;
    uint8_t inputs, outputs;
    inputs = reorder_is_long(m, table.n, row.n);
    outputs = reorder_is_long(m, out.n, outrow.n);
    r10 = reorder_test_sizes(m, inputs, outputs);
    switch (r10.b[0]) {
    case 1:
        copy(why.b, r10.b + 8, 16);
        r11.b[0] = 1;
        copy(r11.b + 8, why.b, 16);
        break;
    case 0:
        r11 = reorder_undo_long((uint64_t)m, table, row, out, outrow);
        break;
    default:
        unreachable();
    }
    return r11;
}

/* shortened_search::search_sound, crates/shortened_search/src/lib.rt */
static bytes280_8 shortened_search_search_sound(bytes8_4 code, uint32_t allowed, slice named,
    slice readings, slice bits, slice word) {
    bytes24_8 result;
    bytes256_1 kinds, runner_up, r27;
    bytes280_8 result2;
    bytes512_2 own;
    uint64_t n, r28, r31;
    fill(kinds.b, 0, 256);
    r28 = 0;
    for (;;) {
        put_i16(own.b + r28, 0);
        r31 = r28 + 2;
        r28 = r31;
        if (r31 == 512) break;
    }
    n = code_Code_length(code);
    named_put_left(code, named, slice_of(kinds.b, n));
    search_copy_readings(readings, slice_of(own.b, n));
    fill(runner_up.b, 0, 256);
    result = search_search_kinds(own.b, kinds.b, get_i32(code.b + 4), allowed, bits, word,
        runner_up.b);
    r27 = runner_up;
    copy(result2.b, result.b, 24);
    copy(result2.b + 24, r27.b, 256);
    return result2;
}

/* shortened_search::search_left, crates/shortened_search/src/lib.rt. The tests 2 to 4, and the
 * search. */
static bytes280_8 shortened_search_search_left(bytes8_4 code, uint32_t allowed, slice named,
    slice readings, slice bits, slice word) {
    bytes16_8 why;
    bytes24_8 r8;
    bytes280_8 r11;
    uint64_t left;
    left = named_count_left(code, named);
    r8 = code_admit_for(code, left, readings, bits.n, word.n);
    switch (r8.b[0]) {
    case 1:
        copy(why.b, r8.b + 8, 16);
        r11 = search_WithRunnerUp_refused(why);
        break;
    case 0:
        r11 = shortened_search_search_sound(code, allowed, named, readings, bits, word);
        break;
    default:
        unreachable();
    }
    return r11;
}

/* shortened_search::search_within_shortened, crates/shortened_search/src/lib.rt. Writes the
 * information bits and the word of least penalty in the smaller set, if no other word of it has
 * that penalty and the walk needs no more visits than allowed. */
static bytes280_8 shortened_search_search_within_shortened(uint32_t r, uint32_t m,
    uint32_t allowed, slice named, slice readings, slice bits, slice word) {
    bytes16_8 why;
    bytes24_8 r7;
    bytes280_8 r8;
    bytes8_4 code;
    r7 = named_admit_row(r, m, named);
    switch (r7.b[0]) {
    case 1:
        copy(why.b, r7.b + 8, 16);
        r8 = search_WithRunnerUp_refused(why);
        break;
    case 0:
        copy(code.b, r7.b + 4, 8);
        r8 = shortened_search_search_left(code, allowed, named, readings, bits, word);
        break;
    default:
        unreachable();
    }
    return r8;
}

/* shortened_search::search_shortened, crates/shortened_search/src/lib.rt. The same, with the
 * default allowance. */
static bytes280_8 shortened_search_search_shortened(uint32_t r, uint32_t m, slice named,
    slice readings, slice bits, slice word) {
    return shortened_search_search_within_shortened(r, m, 200000, named, readings, bits, word);
}

/* guarded::Fault::shown, crates/guarded/src/lib.rt. What the fault reports: what the search's
 * refusal does, else only its number. */
static bytes24_8 guarded_Fault_shown(bytes24_8 self) {
    bytes16_8 why;
    bytes24_8 none, r4;
    uint32_t r25, r27, r37, r39, r49, r51, r61, r63;
    uint64_t r23, r35, r47, r59;
    put_i32(none.b, 0);
    put_i64(none.b + 8, 0);
    put_i32(none.b + 16, 0);
    put_i32(none.b + 20, 0);
    switch (self.b[0]) {
    case 0:
        copy(why.b, self.b + 8, 16);
        r4 = code_Refusal_shown(why);
        break;
    case 1:
        r23 = get_i64(none.b + 8);
        r25 = get_i32(none.b + 16);
        r27 = get_i32(none.b + 20);
        put_i32(r4.b, 13);
        put_i64(r4.b + 8, r23);
        put_i32(r4.b + 16, r25);
        put_i32(r4.b + 20, r27);
        break;
    case 2:
        r35 = get_i64(none.b + 8);
        r37 = get_i32(none.b + 16);
        r39 = get_i32(none.b + 20);
        put_i32(r4.b, 14);
        put_i64(r4.b + 8, r35);
        put_i32(r4.b + 16, r37);
        put_i32(r4.b + 20, r39);
        break;
    case 3:
        r47 = get_i64(none.b + 8);
        r49 = get_i32(none.b + 16);
        r51 = get_i32(none.b + 20);
        put_i32(r4.b, 15);
        put_i64(r4.b + 8, r47);
        put_i32(r4.b + 16, r49);
        put_i32(r4.b + 20, r51);
        break;
    case 4:
        r59 = get_i64(none.b + 8);
        r61 = get_i32(none.b + 16);
        r63 = get_i32(none.b + 20);
        put_i32(r4.b, 16);
        put_i64(r4.b + 8, r59);
        put_i32(r4.b + 16, r61);
        put_i32(r4.b + 20, r63);
        break;
    default:
        unreachable();
    }
    return r4;
}

/* guarded::Fault::number, crates/guarded/src/lib.rt */
static uint32_t guarded_Fault_number(bytes24_8 self) {
    bytes24_8 shown;
    shown = guarded_Fault_shown(self);
    return get_i32(shown.b);
}

/* guarded::Fault::penalty, crates/guarded/src/lib.rt */
static uint32_t guarded_Fault_penalty(bytes24_8 self) {
    bytes24_8 shown;
    shown = guarded_Fault_shown(self);
    return get_i32(shown.b + 16);
}

/* guarded::Fault::place, crates/guarded/src/lib.rt */
static uint64_t guarded_Fault_place(bytes24_8 self) {
    bytes24_8 shown;
    shown = guarded_Fault_shown(self);
    return get_i64(shown.b + 8);
}

/* guarded::Fault::visits, crates/guarded/src/lib.rt */
static uint32_t guarded_Fault_visits(bytes24_8 self) {
    bytes24_8 shown;
    shown = guarded_Fault_shown(self);
    return get_i32(shown.b + 20);
}

/* guarded::wide, crates/guarded/src/lib.rt */
static uint32_t guarded_wide(uint8_t x) {
    return (uint32_t)x;
}

/* guarded::number_of, crates/guarded/src/lib.rt. The number whose binary digits these are, most
 * significant first. */
static uint32_t guarded_number_of(slice bits) {
    uint32_t n;
    uint64_t i;
    n = 0;
    i = 0;
    while (i < bits.n) {
        n = 2 * n + guarded_wide(bits.at[i]);
        i = i + 1;
    }
    return n;
}

/* rod::judge, crates/rod/src/lib.rt. Shows the position of the bits that were found, unless
 * their marker is set. */
static bytes32_8 rod_judge(uint64_t m, slice bits, uint32_t penalty, uint32_t gap) {
    bytes24_8 r7;
    bytes32_8 result;
    uint32_t position;
    uint8_t marker;
    marker = bits.at[m];
    if (marker != 0) {
        r7.b[0] = 1;
        result.b[0] = 1;
        copy(result.b + 8, r7.b, 24);
        return result;
    }
    position = guarded_number_of(slice_of(bits.at, m));
    result.b[0] = 0;
    put_i32(result.b + 4, position);
    put_i32(result.b + 8, penalty);
    put_i32(result.b + 12, gap);
    return result;
}

/* rod::read, crates/rod/src/lib.rt. The position of the best word for the readings, or why there
 * is none to show. */
static bytes32_8 rod_read(uint32_t m, slice readings) {
    bytes16_8 why, r12;
    bytes24_8 answer, r13, r25;
    bytes256_1 word;
    bytes32_8 result, r24;
    bytes9_1 bits;
    uint64_t k, last, n;
    if (8 < m) {
        r12.b[0] = 0;
        r13.b[0] = 0;
        copy(r13.b + 8, r12.b, 16);
        result.b[0] = 1;
        copy(result.b + 8, r13.b, 24);
        return result;
    }
    last = (uint64_t)m;
    k = last + 1;
    n = UINT64_C(1) << (uint64_t)m;
    fill(bits.b, 0, 9);
    fill(word.b, 0, 256);
    answer = first_order_first_order(1, m, readings, slice_of(bits.b, k), slice_of(word.b, n));
    switch (answer.b[0]) {
    case 1:
        copy(why.b, answer.b + 8, 16);
        r25.b[0] = 0;
        copy(r25.b + 8, why.b, 16);
        r24.b[0] = 1;
        copy(r24.b + 8, r25.b, 24);
        break;
    case 0:
        r24 = rod_judge(last, slice_of(bits.b, k), get_i32(answer.b + 4), get_i32(answer.b + 8));
        break;
    default:
        unreachable();
    }
    return r24;
}

/* rod::write, crates/rod/src/lib.rt. Writes the position's word into the lent buffer. */
static bytes32_8 rod_write(uint32_t m, uint32_t position, slice word) {
    bytes16_8 r6, r8, r11;
    bytes24_8 r7, r9, r12, r13;
    bytes32_8 result;
    uint64_t n, place;
    uint8_t sign;
    if (m == 0) {
        r6.b[0] = 0;
        r7.b[0] = 0;
        copy(r7.b + 8, r6.b, 16);
        result.b[0] = 1;
        copy(result.b + 8, r7.b, 24);
        return result;
    }
    if (8 < m) {
        r8.b[0] = 0;
        r9.b[0] = 0;
        copy(r9.b + 8, r8.b, 16);
        result.b[0] = 1;
        copy(result.b + 8, r9.b, 24);
        return result;
    }
    n = UINT64_C(1) << (uint64_t)m;
    if (word.n != n) {
        r11.b[0] = 2;
        r12.b[0] = 0;
        copy(r12.b + 8, r11.b, 16);
        result.b[0] = 1;
        copy(result.b + 8, r12.b, 24);
        return result;
    }
    place = (uint64_t)position;
    if (n <= place) {
        r13.b[0] = 4;
        result.b[0] = 1;
        copy(result.b + 8, r13.b, 24);
        return result;
    }
    sign = (uint8_t)(ones32(position) % 2);
    first_order_put_word(word, (uint64_t)m, place, sign);
    result.b[0] = 0;
    return result;
}

/* telegram::field_fault, crates/telegram/src/lib.rt. Test 16. */
static bytes32_8 telegram_field_fault(bytes12_4 telegram) {
    bytes24_8 r3, r4;
    bytes32_8 result;
    if (7 < get_i32(telegram.b)) {
        r3.b[0] = 4;
        result.b[0] = 1;
        copy(result.b + 8, r3.b, 24);
        return result;
    }
    if (1 < get_i32(telegram.b + 4)) {
        r4.b[0] = 4;
        result.b[0] = 1;
        copy(result.b + 8, r4.b, 24);
        return result;
    }
    result.b[0] = 0;
    return result;
}

/* telegram::put_number, crates/telegram/src/lib.rt. ---- bits The number's lowest binary digits,
 * as many as there are places, most significant first. */
static void telegram_put_number(uint32_t number, slice bits) {
    uint32_t above;
    uint64_t i, n;
    n = bits.n;
    i = 0;
    while (i < n) {
        above = number >> (uint32_t)(n - 1 - i);
        bits.at[i] = (uint8_t)(above % 2);
        i = i + 1;
    }
}

/* telegram::put_word, crates/telegram/src/lib.rt. The telegram's bits, whose marker is last and
 * stays 0, and their word. */
static void telegram_put_word(bytes12_4 telegram, slice word) {
    bytes16_1 bits;
    fill(bits.b, 0, 16);
    telegram_put_number(get_i32(telegram.b), slice_of(bits.b, UINT64_C(3)));
    telegram_put_number(get_i32(telegram.b + 4), slice_of(bits.b + 3, UINT64_C(4) - 3));
    telegram_put_number(get_i32(telegram.b + 8), slice_of(bits.b + 4, UINT64_C(15) - 4));
    (void)encode_encode(2, 5, slice_of(bits.b, 16), word);
}

/* telegram::telegram_of, crates/telegram/src/lib.rt. The telegram that 16 bits say, whatever
 * their marker is. */
static bytes12_4 telegram_telegram_of(slice bits) {
    bytes12_4 result;
    uint32_t cylinder, direction, tilt;
    cylinder = guarded_number_of(slice_of(bits.at, UINT64_C(3)));
    direction = guarded_number_of(slice_of(bits.at + 3, UINT64_C(4) - 3));
    tilt = guarded_number_of(slice_of(bits.at + 4, UINT64_C(15) - 4));
    put_i32(result.b, cylinder);
    put_i32(result.b + 4, direction);
    put_i32(result.b + 8, tilt);
    return result;
}

/* telegram::tilt_fault, crates/telegram/src/lib.rt. ---- tests Tests 14 and 15. */
static bytes32_8 telegram_tilt_fault(bytes12_4 telegram) {
    bytes24_8 r3, r5;
    bytes32_8 result;
    if (1500 < get_i32(telegram.b + 8)) {
        r3.b[0] = 2;
        result.b[0] = 1;
        copy(result.b + 8, r3.b, 24);
        return result;
    }
    if (get_i32(telegram.b + 8) == 0) {
        if (get_i32(telegram.b + 4) == 1) {
            r5.b[0] = 3;
            result.b[0] = 1;
            copy(result.b + 8, r5.b, 24);
            return result;
        }
    }
    result.b[0] = 0;
    return result;
}

/* telegram::reader_fault, crates/telegram/src/lib.rt. The reader's: 13, 14, 15. */
static bytes32_8 telegram_reader_fault(uint8_t marker, bytes12_4 telegram) {
    bytes24_8 r3;
    bytes32_8 result;
    if (marker != 0) {
        r3.b[0] = 1;
        result.b[0] = 1;
        copy(result.b + 8, r3.b, 24);
        return result;
    }
    return telegram_tilt_fault(telegram);
}

/* telegram::judge, crates/telegram/src/lib.rt. Shows the telegram of the bits that the search
 * found, unless a fault forbids it. */
static bytes32_8 telegram_judge(slice bits, uint32_t penalty, uint32_t gap, uint32_t visits) {
    bytes12_4 telegram;
    bytes24_8 why;
    bytes32_8 r4, r7;
    telegram = telegram_telegram_of(bits);
    r4 = telegram_reader_fault(bits.at[15], telegram);
    switch (r4.b[0]) {
    case 1:
        copy(why.b, r4.b + 8, 24);
        r7.b[0] = 1;
        copy(r7.b + 8, why.b, 24);
        break;
    case 0:
        r7.b[0] = 0;
        copy(r7.b + 4, telegram.b, 12);
        put_i32(r7.b + 16, penalty);
        put_i32(r7.b + 20, gap);
        put_i32(r7.b + 24, visits);
        break;
    default:
        unreachable();
    }
    return r7;
}

/* telegram::of_bits, crates/telegram/src/lib.rt. What 16 information bits say, for example those
 * of a runner-up: the reader without its search. */
static bytes32_8 telegram_of_bits(slice bits) {
    bytes16_8 r5, r7;
    bytes24_8 r6, r8;
    bytes32_8 result;
    uint64_t place;
    if (bits.n != 16) {
        r5.b[0] = 1;
        r6.b[0] = 0;
        copy(r6.b + 8, r5.b, 16);
        result.b[0] = 1;
        copy(result.b + 8, r6.b, 24);
        return result;
    }
    place = code_first_bad_bit(bits);
    if (place < bits.n) {
        r7.b[0] = 3;
        put_i64(r7.b + 8, place);
        r8.b[0] = 0;
        copy(r8.b + 8, r7.b, 16);
        result.b[0] = 1;
        copy(result.b + 8, r8.b, 24);
        return result;
    }
    return telegram_judge(bits, 0, 0, 0);
}

/* telegram::read_within, crates/telegram/src/lib.rt. The telegram of the best word for the
 * readings, or why there is none to show. */
static bytes32_8 telegram_read_within(uint32_t allowed, slice readings) {
    bytes16_1 found;
    bytes16_8 why;
    bytes24_8 result, r15;
    bytes280_8 answer;
    bytes32_1 word;
    bytes32_8 r14;
    uint32_t gap, penalty, visits;
    fill(found.b, 0, 16);
    fill(word.b, 0, 32);
    answer = search_search_within(2, 5, allowed, readings, slice_of(found.b, 16), slice_of(word.b,
        32));
    copy(result.b, answer.b, 24);
    switch (result.b[0]) {
    case 1:
        copy(why.b, result.b + 8, 16);
        r15.b[0] = 0;
        copy(r15.b + 8, why.b, 16);
        r14.b[0] = 1;
        copy(r14.b + 8, r15.b, 24);
        break;
    case 0:
        penalty = get_i32(result.b + 4);
        gap = get_i32(result.b + 8);
        visits = get_i32(result.b + 12);
        r14 = telegram_judge(slice_of(found.b, 16), penalty, gap, visits);
        break;
    default:
        unreachable();
    }
    return r14;
}

/* telegram::read, crates/telegram/src/lib.rt. The same, with the default allowance. */
static bytes32_8 telegram_read(slice readings) {
    return telegram_read_within(200000, readings);
}

/* telegram::writer_fault, crates/telegram/src/lib.rt. The writer's: 14, 15, 16. */
static bytes32_8 telegram_writer_fault(bytes12_4 telegram) {
    bytes24_8 why;
    bytes32_8 r3, r4;
    r3 = telegram_tilt_fault(telegram);
    switch (r3.b[0]) {
    case 1:
        copy(why.b, r3.b + 8, 24);
        r4.b[0] = 1;
        copy(r4.b + 8, why.b, 24);
        break;
    case 0:
        r4 = telegram_field_fault(telegram);
        break;
    default:
        unreachable();
    }
    return r4;
}

/* telegram::write, crates/telegram/src/lib.rt. Writes the telegram's word into the lent buffer. */
static bytes32_8 telegram_write(uint32_t cylinder, uint32_t direction, uint32_t tilt, slice word) {
    bytes12_4 telegram;
    bytes16_8 r6;
    bytes24_8 why, r7;
    bytes32_8 result, r8, r9;
    if (word.n != 32) {
        r6.b[0] = 2;
        r7.b[0] = 0;
        copy(r7.b + 8, r6.b, 16);
        result.b[0] = 1;
        copy(result.b + 8, r7.b, 24);
        return result;
    }
    put_i32(telegram.b, cylinder);
    put_i32(telegram.b + 4, direction);
    put_i32(telegram.b + 8, tilt);
    r8 = telegram_writer_fault(telegram);
    switch (r8.b[0]) {
    case 1:
        copy(why.b, r8.b + 8, 24);
        r9.b[0] = 1;
        copy(r9.b + 8, why.b, 24);
        break;
    case 0:
        telegram_put_word(telegram, word);
        r9.b[0] = 0;
        break;
    default:
        unreachable();
    }
    return r9;
}

/* answers::put_five, crates/answers/src/lib.rt. r, m, start, length and place. */
static void answers_put_five(unsigned char *out, uint32_t r, uint32_t m, uint64_t start,
    uint64_t length, uint64_t place) {
    put_i64(out, (uint64_t)r);
    put_i64(out + 8, (uint64_t)m);
    put_i64(out + 16, start);
    put_i64(out + 24, length);
    put_i64(out + 32, place);
}

/* answers::put_entry, crates/answers/src/lib.rt. A record that was found, and where its packed
 * part starts. */
static uint32_t answers_put_entry(bytes24_8 header, uint64_t start, uint64_t length,
    unsigned char *out) {
    bytes16_8 why;
    bytes8_4 code;
    uint32_t r4;
    switch (header.b[0]) {
    case 0:
        copy(code.b, header.b + 4, 8);
        answers_put_five(out, get_i32(code.b), get_i32(code.b + 4), start, length, 0);
        r4 = 0;
        break;
    case 1:
        copy(why.b, header.b + 8, 16);
        answers_put_five(out, 0, 0, start, length, code_Refusal_place(why));
        r4 = code_Refusal_number(why);
        break;
    default:
        unreachable();
    }
    return r4;
}

/* answers::put_numbers, crates/answers/src/lib.rt. Penalty, gap, visits and place. */
static void answers_put_numbers(unsigned char *out, uint32_t penalty, uint32_t gap,
    uint32_t visits, uint64_t place) {
    put_i64(out, (uint64_t)penalty);
    put_i64(out + 8, (uint64_t)gap);
    put_i64(out + 16, (uint64_t)visits);
    put_i64(out + 24, place);
}

/* answers::put_part, crates/answers/src/lib.rt. r, m, the packed part's length and place. */
static void answers_put_part(unsigned char *out, uint32_t r, uint32_t m, uint64_t length,
    uint64_t place) {
    put_i64(out, (uint64_t)r);
    put_i64(out + 8, (uint64_t)m);
    put_i64(out + 16, length);
    put_i64(out + 24, place);
}

/* answers::put_header, crates/answers/src/lib.rt */
static uint32_t answers_put_header(bytes24_8 header, uint64_t length, unsigned char *out) {
    bytes16_8 why;
    bytes8_4 code;
    uint32_t r4;
    switch (header.b[0]) {
    case 0:
        copy(code.b, header.b + 4, 8);
        answers_put_part(out, get_i32(code.b), get_i32(code.b + 4), length, 0);
        r4 = 0;
        break;
    case 1:
        copy(why.b, header.b + 8, 16);
        answers_put_part(out, 0, 0, length, code_Refusal_place(why));
        r4 = code_Refusal_number(why);
        break;
    default:
        unreachable();
    }
    return r4;
}

/* answers::put_place, crates/answers/src/lib.rt. A refusal by a call whose refusals show only
 * their place. */
static uint32_t answers_put_place(bytes16_8 why, unsigned char *out) {
    answers_put_numbers(out, 0, 0, 0, code_Refusal_place(why));
    return code_Refusal_number(why);
}

/* answers::put_completed, crates/answers/src/lib.rt. A call that is done, or its refusal. */
static uint32_t answers_put_completed(bytes24_8 answer, unsigned char *out) {
    bytes16_8 why;
    uint32_t r3;
    switch (answer.b[0]) {
    case 0:
        answers_put_numbers(out, 0, 0, 0, 0);
        r3 = 0;
        break;
    case 1:
        copy(why.b, answer.b + 8, 16);
        r3 = answers_put_place(why, out);
        break;
    default:
        unreachable();
    }
    return r3;
}

/* answers::put_places, crates/answers/src/lib.rt. The place after the record, and a reading's
 * place. */
static void answers_put_places(unsigned char *out, uint64_t next, uint64_t place) {
    put_i64(out, next);
    put_i64(out + 8, place);
}

/* answers::put_appended, crates/answers/src/lib.rt. The index after an append, which stays as it
 * is on refusal; the new end and the place under 4. */
static uint32_t answers_put_appended(bytes24_8 answer, unsigned char *index, unsigned char *out) {
    bytes16_8 after, why;
    uint32_t r4;
    switch (answer.b[0]) {
    case 0:
        copy(after.b, answer.b + 8, 16);
        answers_put_places(index, get_i64(after.b), get_i64(after.b + 8));
        answers_put_places(out, get_i64(after.b + 8), 0);
        r4 = 0;
        break;
    case 1:
        copy(why.b, answer.b + 8, 16);
        answers_put_places(out, 0, code_Refusal_place(why));
        r4 = code_Refusal_number(why);
        break;
    default:
        unreachable();
    }
    return r4;
}

/* answers::put_made, crates/answers/src/lib.rt. The index that was made: records and used. */
static uint32_t answers_put_made(bytes24_8 answer, unsigned char *out) {
    bytes16_8 index, why;
    uint32_t r4;
    switch (answer.b[0]) {
    case 0:
        copy(index.b, answer.b + 8, 16);
        answers_put_places(out, get_i64(index.b), get_i64(index.b + 8));
        r4 = 0;
        break;
    case 1:
        copy(why.b, answer.b + 8, 16);
        answers_put_places(out, 0, 0);
        r4 = code_Refusal_number(why);
        break;
    default:
        unreachable();
    }
    return r4;
}

/* answers::put_read, crates/answers/src/lib.rt */
static uint32_t answers_put_read(bytes24_8 answer, unsigned char *out) {
    bytes16_8 why;
    uint32_t penalty, r4, r15;
    switch (answer.b[0]) {
    case 0:
        penalty = get_i32(answer.b + 4);
        answers_put_numbers(out, penalty, 0, 0, 0);
        r4 = 0;
        break;
    case 1:
        copy(why.b, answer.b + 8, 16);
        r15 = code_Refusal_penalty(why);
        answers_put_numbers(out, r15, 0, 0, code_Refusal_place(why));
        r4 = code_Refusal_number(why);
        break;
    default:
        unreachable();
    }
    return r4;
}

/* answers::put_refused, crates/answers/src/lib.rt. A refusal by a search. */
static uint32_t answers_put_refused(bytes16_8 why, unsigned char *out) {
    uint32_t r6, r7;
    r6 = code_Refusal_penalty(why);
    r7 = code_Refusal_visits(why);
    answers_put_numbers(out, r6, 0, r7, code_Refusal_place(why));
    return code_Refusal_number(why);
}

/* answers::put_answered, crates/answers/src/lib.rt */
static uint32_t answers_put_answered(bytes24_8 answer, unsigned char *out) {
    bytes16_8 why;
    uint32_t penalty, r4;
    switch (answer.b[0]) {
    case 0:
        penalty = get_i32(answer.b + 4);
        answers_put_numbers(out, penalty, 0, 0, 0);
        r4 = 0;
        break;
    case 1:
        copy(why.b, answer.b + 8, 16);
        r4 = answers_put_refused(why, out);
        break;
    default:
        unreachable();
    }
    return r4;
}

/* answers::put_rod, crates/answers/src/lib.rt. A rod position goes into a number of its own. */
static uint32_t answers_put_rod(bytes32_8 answer, unsigned char *position, unsigned char *out) {
    bytes24_8 r5;
    uint32_t why, r6, r27, r28;
    switch (answer.b[0]) {
    case 0:
        why = get_i32(answer.b + 4);
        answers_put_numbers(out, get_i32(answer.b + 8), get_i32(answer.b + 12), 0, 0);
        put_i64(position, (uint64_t)why);
        r6 = 0;
        break;
    case 1:
        copy(r5.b, answer.b + 8, 24);
        r27 = guarded_Fault_penalty(r5);
        r28 = guarded_Fault_visits(r5);
        answers_put_numbers(out, r27, 0, r28, guarded_Fault_place(r5));
        put_i64(position, 0);
        r6 = guarded_Fault_number(r5);
        break;
    default:
        unreachable();
    }
    return r6;
}

/* answers::put_searched, crates/answers/src/lib.rt */
static uint32_t answers_put_searched(bytes24_8 answer, unsigned char *out) {
    bytes16_8 why;
    uint32_t gap, penalty, visits, r6;
    switch (answer.b[0]) {
    case 0:
        penalty = get_i32(answer.b + 4);
        gap = get_i32(answer.b + 8);
        visits = get_i32(answer.b + 12);
        answers_put_numbers(out, penalty, gap, visits, 0);
        r6 = 0;
        break;
    case 1:
        copy(why.b, answer.b + 8, 16);
        r6 = answers_put_refused(why, out);
        break;
    default:
        unreachable();
    }
    return r6;
}

/* answers::put_telegram, crates/answers/src/lib.rt. Cylinder, direction and tilt. */
static void answers_put_telegram(unsigned char *out, bytes12_4 t) {
    uint64_t r8, r11;
    r8 = (uint64_t)get_i32(t.b + 4);
    r11 = (uint64_t)get_i32(t.b + 8);
    put_i64(out, (uint64_t)get_i32(t.b));
    put_i64(out + 8, r8);
    put_i64(out + 16, r11);
}

/* answers::put_heard, crates/answers/src/lib.rt */
static uint32_t answers_put_heard(bytes32_8 answer, unsigned char *telegram, unsigned char *out) {
    bytes12_4 why;
    bytes24_8 r6;
    uint32_t r7, r28, r29;
    switch (answer.b[0]) {
    case 0:
        copy(why.b, answer.b + 4, 12);
        answers_put_numbers(out, get_i32(answer.b + 16), get_i32(answer.b + 20), get_i32(answer.b
            + 24), 0);
        answers_put_telegram(telegram, why);
        r7 = 0;
        break;
    case 1:
        copy(r6.b, answer.b + 8, 24);
        r28 = guarded_Fault_penalty(r6);
        r29 = guarded_Fault_visits(r6);
        answers_put_numbers(out, r28, 0, r29, guarded_Fault_place(r6));
        put_i64(telegram, 0);
        put_i64(telegram + 8, 0);
        put_i64(telegram + 16, 0);
        r7 = guarded_Fault_number(r6);
        break;
    default:
        unreachable();
    }
    return r7;
}

/* answers::put_three, crates/answers/src/lib.rt. Records and bytes at a capture's front, and the
 * number of what ended them. */
static void answers_put_three(unsigned char *out, uint64_t records, uint64_t used, uint32_t ended) {
    put_i64(out, records);
    put_i64(out + 8, used);
    put_i64(out + 16, (uint64_t)ended);
}

/* answers::put_front, crates/answers/src/lib.rt. The index of a capture's front: records, used
 * and ended. */
static uint32_t answers_put_front(bytes32_8 answer, unsigned char *out) {
    bytes16_8 why;
    bytes24_8 front;
    uint32_t r4;
    switch (answer.b[0]) {
    case 0:
        copy(front.b, answer.b + 8, 24);
        answers_put_three(out, get_i64(front.b), get_i64(front.b + 8), get_i32(front.b + 16));
        r4 = 0;
        break;
    case 1:
        copy(why.b, answer.b + 8, 16);
        answers_put_three(out, 0, 0, 0);
        r4 = code_Refusal_number(why);
        break;
    default:
        unreachable();
    }
    return r4;
}

/* answers::put_with_runner_up, crates/answers/src/lib.rt. An answer with a runner-up, which goes
 * into the lent bytes, zeros included. */
static uint32_t answers_put_with_runner_up(bytes280_8 answer, unsigned char *runner_up,
    unsigned char *out) {
    bytes24_8 result;
    bytes256_1 shown;
    copy(shown.b, answer.b + 24, 256);
    copy(runner_up, shown.b, 256);
    copy(result.b, answer.b, 24);
    return answers_put_searched(result, out);
}

/* answers::put_written, crates/answers/src/lib.rt. A writer of guarded words reports only its
 * number. */
static uint32_t answers_put_written(bytes32_8 answer, unsigned char *out) {
    bytes24_8 why;
    uint32_t r4;
    answers_put_numbers(out, 0, 0, 0, 0);
    switch (answer.b[0]) {
    case 0:
        r4 = 0;
        break;
    case 1:
        copy(why.b, answer.b + 8, 24);
        r4 = guarded_Fault_number(why);
        break;
    default:
        unreachable();
    }
    return r4;
}

/* answers::put_wrote, crates/answers/src/lib.rt */
static uint32_t answers_put_wrote(bytes24_8 answer, unsigned char *out) {
    bytes16_8 why;
    uint32_t r4;
    uint64_t next;
    switch (answer.b[0]) {
    case 0:
        next = get_i64(answer.b + 8);
        answers_put_places(out, next, 0);
        r4 = 0;
        break;
    case 1:
        copy(why.b, answer.b + 8, 16);
        answers_put_places(out, 0, code_Refusal_place(why));
        r4 = code_Refusal_number(why);
        break;
    default:
        unreachable();
    }
    return r4;
}

/* pumpbox::lengths::cinorbis_dimension, crates/pumpbox/src/lengths.rt */
static uint64_t pumpbox_lengths_cinorbis_dimension(uint32_t r, uint32_t m) {
    bytes12_4 r2;
    bytes8_4 code;
    uint64_t r3;
    r2 = code_Code_new(r, m);
    switch (r2.b[0]) {
    case 0:
        copy(code.b, r2.b + 4, 8);
        r3 = code_Code_dimension(code);
        break;
    case 1:
        r3 = 0;
        break;
    default:
        unreachable();
    }
    return r3;
}

/* pumpbox::early_answers::cinorbis_early, crates/pumpbox/src/early_answers.rt */
static uint32_t pumpbox_early_answers_cinorbis_early(uint32_t r, uint32_t m, slice readings,
    slice bits, slice word, unsigned char *out) {
    bytes24_8 answer;
    answer = early_early(r, m, readings, bits, word);
    return answers_put_answered(answer, out);
}

/* pumpbox::early_answers::cinorbis_early_within, crates/pumpbox/src/early_answers.rt */
static uint32_t pumpbox_early_answers_cinorbis_early_within(uint32_t r, uint32_t m,
    uint32_t allowed, slice readings, slice bits, slice word, unsigned char *out) {
    bytes24_8 answer;
    answer = early_early_within(r, m, allowed, readings, bits, word);
    return answers_put_answered(answer, out);
}

/* pumpbox::cinorbis_encode, crates/pumpbox/src/lib.rt */
static uint32_t pumpbox_cinorbis_encode(uint32_t r, uint32_t m, slice bits, slice word,
    unsigned char *out) {
    bytes24_8 answer;
    answer = encode_encode(r, m, bits, word);
    return answers_put_completed(answer, out);
}

/* pumpbox::shortening::cinorbis_encode_shortened, crates/pumpbox/src/shortening.rt */
static uint32_t pumpbox_shortening_cinorbis_encode_shortened(uint32_t r, uint32_t m, slice named,
    slice bits, slice word, unsigned char *out) {
    bytes24_8 answer;
    answer = shortened_encode_shortened(r, m, named, bits, word);
    return answers_put_completed(answer, out);
}

/* pumpbox::first::cinorbis_first_order, crates/pumpbox/src/first.rt */
static uint32_t pumpbox_first_cinorbis_first_order(uint32_t r, uint32_t m, slice readings,
    slice bits, slice word, unsigned char *out) {
    bytes24_8 answer;
    answer = first_order_first_order(r, m, readings, bits, word);
    return answers_put_searched(answer, out);
}

/* pumpbox::indexing::cinorbis_index_find, crates/pumpbox/src/indexing.rt */
static uint32_t pumpbox_indexing_cinorbis_index_find(uint64_t w, slice capture, slice table,
    unsigned char *out) {
    bytes24_8 header;
    bytes40_8 found;
    found = index_locate(capture, table, w);
    copy(header.b, found.b, 24);
    return answers_put_entry(header, get_i64(found.b + 24), get_i64(found.b + 32), out);
}

/* pumpbox::indexing::cinorbis_index_front, crates/pumpbox/src/indexing.rt */
static uint32_t pumpbox_indexing_cinorbis_index_front(slice capture, slice table,
    unsigned char *out) {
    bytes32_8 answer;
    answer = index_front(capture, table);
    return answers_put_front(answer, out);
}

/* pumpbox::indexing::cinorbis_index_make, crates/pumpbox/src/indexing.rt */
static uint32_t pumpbox_indexing_cinorbis_index_make(slice capture, slice table,
    unsigned char *out) {
    bytes24_8 answer;
    answer = index_make(capture, table);
    return answers_put_made(answer, out);
}

/* pumpbox::cinorbis_inverse, crates/pumpbox/src/lib.rt */
static uint32_t pumpbox_cinorbis_inverse(uint32_t r, uint32_t m, slice word, slice bits,
    unsigned char *out) {
    bytes24_8 answer;
    answer = encode_inverse(r, m, word, bits);
    return answers_put_completed(answer, out);
}

/* pumpbox::shortening::cinorbis_inverse_shortened, crates/pumpbox/src/shortening.rt */
static uint32_t pumpbox_shortening_cinorbis_inverse_shortened(uint32_t r, uint32_t m, slice named,
    slice word, slice bits, unsigned char *out) {
    bytes24_8 answer;
    answer = shortened_inverse_shortened(r, m, named, word, bits);
    return answers_put_completed(answer, out);
}

/* pumpbox::lengths::cinorbis_length, crates/pumpbox/src/lengths.rt */
static uint64_t pumpbox_lengths_cinorbis_length(uint32_t m) {
    bytes12_4 r2;
    bytes8_4 code;
    uint64_t r3;
    r2 = code_Code_new(0, m);
    switch (r2.b[0]) {
    case 0:
        copy(code.b, r2.b + 4, 8);
        r3 = code_Code_length(code);
        break;
    case 1:
        r3 = 0;
        break;
    default:
        unreachable();
    }
    return r3;
}

/* pumpbox::reordering::cinorbis_product_map, crates/pumpbox/src/reordering.rt */
static uint32_t pumpbox_reordering_cinorbis_product_map(uint32_t m, slice table1, slice row1,
    slice table2, slice row2, slice out, slice outrow, unsigned char *numbers) {
    bytes24_8 answer;
    answer = reorder_product_map(m, table1, row1, table2, row2, out, outrow);
    return answers_put_completed(answer, numbers);
}

/* pumpbox::cinorbis_quick, crates/pumpbox/src/lib.rt */
static uint32_t pumpbox_cinorbis_quick(uint32_t r, uint32_t m, slice readings, slice bits,
    slice word, unsigned char *out) {
    bytes24_8 answer;
    answer = quick_quick(r, m, readings, bits, word);
    return answers_put_read(answer, out);
}

/* pumpbox::shortening::cinorbis_quick_shortened, crates/pumpbox/src/shortening.rt */
static uint32_t pumpbox_shortening_cinorbis_quick_shortened(uint32_t r, uint32_t m, slice named,
    slice readings, slice bits, slice word, unsigned char *out) {
    bytes24_8 answer;
    answer = shortened_quick_shortened(r, m, named, readings, bits, word);
    return answers_put_read(answer, out);
}

/* pumpbox::cinorbis_record, crates/pumpbox/src/lib.rt */
static uint32_t pumpbox_cinorbis_record(slice bytes, unsigned char *out) {
    bytes16_8 part;
    bytes24_8 header;
    header = record_header_of(bytes);
    part = record_packed(bytes);
    return answers_put_header(header, get_i64(part.b + 8), out);
}

/* pumpbox::lengths::cinorbis_record_length, crates/pumpbox/src/lengths.rt */
static uint64_t pumpbox_lengths_cinorbis_record_length(uint32_t first) {
    if (255 < first) {
        return 0;
    }
    return record_record_length((uint8_t)first);
}

/* pumpbox::reordering::cinorbis_reorder, crates/pumpbox/src/reordering.rt */
static uint32_t pumpbox_reordering_cinorbis_reorder(uint32_t m, slice table, slice row,
    slice readings, slice out, unsigned char *numbers) {
    bytes24_8 answer;
    answer = reorder_reorder(m, table, row, readings, out);
    return answers_put_completed(answer, numbers);
}

/* pumpbox::reordering::cinorbis_reorder_word, crates/pumpbox/src/reordering.rt */
static uint32_t pumpbox_reordering_cinorbis_reorder_word(uint32_t m, slice table, slice row,
    slice word, slice out, unsigned char *numbers) {
    bytes24_8 answer;
    answer = reorder_reorder_word(m, table, row, word, out);
    return answers_put_completed(answer, numbers);
}

/* pumpbox::rods::cinorbis_rod_read, crates/pumpbox/src/rods.rt */
static uint32_t pumpbox_rods_cinorbis_rod_read(uint32_t m, slice readings, unsigned char *position,
    unsigned char *out) {
    bytes32_8 answer;
    answer = rod_read(m, readings);
    return answers_put_rod(answer, position, out);
}

/* pumpbox::rods::cinorbis_rod_write, crates/pumpbox/src/rods.rt */
static uint32_t pumpbox_rods_cinorbis_rod_write(uint32_t m, uint32_t position, slice word,
    unsigned char *out) {
    bytes32_8 answer;
    answer = rod_write(m, position, word);
    return answers_put_written(answer, out);
}

/* pumpbox::cinorbis_search, crates/pumpbox/src/lib.rt */
static uint32_t pumpbox_cinorbis_search(uint32_t r, uint32_t m, slice readings, slice bits,
    slice word, unsigned char *runner_up, unsigned char *out) {
    bytes280_8 answer;
    answer = search_search(r, m, readings, bits, word);
    return answers_put_with_runner_up(answer, runner_up, out);
}

/* pumpbox::floats::cinorbis_search_float, crates/pumpbox/src/floats.rt */
static uint32_t pumpbox_floats_cinorbis_search_float(uint32_t r, uint32_t m, slice readings,
    slice bits, slice word, unsigned char *runner_up, unsigned char *out) {
    bytes280_8 answer;
    answer = float_search_search_float(r, m, readings, bits, word);
    return answers_put_with_runner_up(answer, runner_up, out);
}

/* pumpbox::floats::cinorbis_search_float_within, crates/pumpbox/src/floats.rt */
static uint32_t pumpbox_floats_cinorbis_search_float_within(uint32_t r, uint32_t m,
    uint32_t allowed, slice readings, slice bits, slice word, unsigned char *runner_up,
    unsigned char *out) {
    bytes280_8 answer;
    answer = float_search_search_float_within(r, m, allowed, readings, bits, word);
    return answers_put_with_runner_up(answer, runner_up, out);
}

/* pumpbox::cinorbis_search_record, crates/pumpbox/src/lib.rt */
static uint32_t pumpbox_cinorbis_search_record(uint32_t allowed, slice bytes, slice bits,
    slice word, unsigned char *runner_up, unsigned char *out) {
    bytes280_8 answer;
    answer = record_search_record(bytes, allowed, bits, word);
    return answers_put_with_runner_up(answer, runner_up, out);
}

/* pumpbox::shortening::cinorbis_search_shortened, crates/pumpbox/src/shortening.rt */
static uint32_t pumpbox_shortening_cinorbis_search_shortened(uint32_t r, uint32_t m, slice named,
    slice readings, slice bits, slice word, unsigned char *runner_up, unsigned char *out) {
    bytes280_8 answer;
    answer = shortened_search_search_shortened(r, m, named, readings, bits, word);
    return answers_put_with_runner_up(answer, runner_up, out);
}

/* pumpbox::cinorbis_search_within, crates/pumpbox/src/lib.rt */
static uint32_t pumpbox_cinorbis_search_within(uint32_t r, uint32_t m, uint32_t allowed,
    slice readings, slice bits, slice word, unsigned char *runner_up, unsigned char *out) {
    bytes280_8 answer;
    answer = search_search_within(r, m, allowed, readings, bits, word);
    return answers_put_with_runner_up(answer, runner_up, out);
}

/* pumpbox::shortening::cinorbis_search_within_shortened, crates/pumpbox/src/shortening.rt */
static uint32_t pumpbox_shortening_cinorbis_search_within_shortened(uint32_t r, uint32_t m,
    uint32_t allowed, slice named, slice readings, slice bits, slice word,
    unsigned char *runner_up, unsigned char *out) {
    bytes280_8 answer;
    answer = shortened_search_search_within_shortened(r, m, allowed, named, readings, bits, word);
    return answers_put_with_runner_up(answer, runner_up, out);
}

/* pumpbox::telegrams::cinorbis_telegram_of_bits, crates/pumpbox/src/telegrams.rt */
static uint32_t pumpbox_telegrams_cinorbis_telegram_of_bits(slice bits, unsigned char *telegram,
    unsigned char *out) {
    bytes32_8 answer;
    answer = telegram_of_bits(bits);
    return answers_put_heard(answer, telegram, out);
}

/* pumpbox::telegrams::cinorbis_telegram_read, crates/pumpbox/src/telegrams.rt */
static uint32_t pumpbox_telegrams_cinorbis_telegram_read(slice readings, unsigned char *telegram,
    unsigned char *out) {
    bytes32_8 answer;
    answer = telegram_read(readings);
    return answers_put_heard(answer, telegram, out);
}

/* pumpbox::telegrams::cinorbis_telegram_read_within, crates/pumpbox/src/telegrams.rt */
static uint32_t pumpbox_telegrams_cinorbis_telegram_read_within(uint32_t allowed, slice readings,
    unsigned char *telegram, unsigned char *out) {
    bytes32_8 answer;
    answer = telegram_read_within(allowed, readings);
    return answers_put_heard(answer, telegram, out);
}

/* pumpbox::telegrams::cinorbis_telegram_write, crates/pumpbox/src/telegrams.rt */
static uint32_t pumpbox_telegrams_cinorbis_telegram_write(uint32_t cylinder, uint32_t direction,
    uint32_t tilt, slice word, unsigned char *out) {
    bytes32_8 answer;
    answer = telegram_write(cylinder, direction, tilt, word);
    return answers_put_written(answer, out);
}

/* pumpbox::reordering::cinorbis_undo_map, crates/pumpbox/src/reordering.rt */
static uint32_t pumpbox_reordering_cinorbis_undo_map(uint32_t m, slice table, slice row, slice out,
    slice outrow, unsigned char *numbers) {
    bytes24_8 answer;
    answer = reorder_undo_map(m, table, row, out, outrow);
    return answers_put_completed(answer, numbers);
}

/* pumpbox::unpacking::cinorbis_unpack, crates/pumpbox/src/unpacking.rt */
static uint32_t pumpbox_unpacking_cinorbis_unpack(slice part, slice readings, unsigned char *out) {
    bytes24_8 answer;
    answer = packing_unpack(part, readings);
    return answers_put_completed(answer, out);
}

/* pumpbox::lengths::cinorbis_version, crates/pumpbox/src/lengths.rt */
static uint32_t pumpbox_lengths_cinorbis_version(void) {
    return 17;
}

/* pumpbox::writing::cinorbis_write_record, crates/pumpbox/src/writing.rt */
static uint32_t pumpbox_writing_cinorbis_write_record(uint32_t r, uint32_t m, uint64_t at,
    slice readings, slice buffer, unsigned char *out) {
    bytes24_8 answer;
    answer = record_write(r, m, readings, buffer, at);
    return answers_put_wrote(answer, out);
}

/* pumpbox::indexing::taken, crates/pumpbox/src/indexing.rt. The index that was passed. */
static bytes16_8 pumpbox_indexing_taken(unsigned char *index) {
    bytes16_8 result;
    uint64_t r17;
    r17 = get_i64(index + 8);
    put_i64(result.b, get_i64(index));
    put_i64(result.b + 8, r17);
    return result;
}

/* pumpbox::indexing::cinorbis_index_append, crates/pumpbox/src/indexing.rt */
static uint32_t pumpbox_indexing_cinorbis_index_append(uint32_t r, uint32_t m, slice readings,
    slice capture, slice table, unsigned char *index, unsigned char *out) {
    bytes16_8 before;
    bytes24_8 answer;
    before = pumpbox_indexing_taken(index);
    answer = index_append(before, r, m, readings, capture, table);
    return answers_put_appended(answer, index, out);
}

/* cinorbis_dimension */
cinorbis_size cinorbis_dimension(uint32_t r, uint32_t m) {
    return pumpbox_lengths_cinorbis_dimension(r, m);
}

/* cinorbis_early */
uint32_t cinorbis_early(uint32_t r, uint32_t m, const int16_t *readings,
    cinorbis_size readings_length, uint8_t *bits, cinorbis_size bits_length, uint8_t *word,
    cinorbis_size word_length, cinorbis_numbers *numbers) {
    return pumpbox_early_answers_cinorbis_early(r, m, slice_of((unsigned char *)readings,
        readings_length), slice_of((unsigned char *)bits, bits_length),
        slice_of((unsigned char *)word, word_length), (unsigned char *)numbers);
}

/* cinorbis_early_within */
uint32_t cinorbis_early_within(uint32_t r, uint32_t m, uint32_t allowed, const int16_t *readings,
    cinorbis_size readings_length, uint8_t *bits, cinorbis_size bits_length, uint8_t *word,
    cinorbis_size word_length, cinorbis_numbers *numbers) {
    return pumpbox_early_answers_cinorbis_early_within(r, m, allowed,
        slice_of((unsigned char *)readings, readings_length), slice_of((unsigned char *)bits,
        bits_length), slice_of((unsigned char *)word, word_length), (unsigned char *)numbers);
}

/* cinorbis_encode */
uint32_t cinorbis_encode(uint32_t r, uint32_t m, const uint8_t *bits, cinorbis_size bits_length,
    uint8_t *word, cinorbis_size word_length, cinorbis_numbers *numbers) {
    return pumpbox_cinorbis_encode(r, m, slice_of((unsigned char *)bits, bits_length),
        slice_of((unsigned char *)word, word_length), (unsigned char *)numbers);
}

/* cinorbis_encode_shortened */
uint32_t cinorbis_encode_shortened(uint32_t r, uint32_t m, const uint8_t *named,
    cinorbis_size named_length, const uint8_t *bits, cinorbis_size bits_length, uint8_t *word,
    cinorbis_size word_length, cinorbis_numbers *numbers) {
    return pumpbox_shortening_cinorbis_encode_shortened(r, m, slice_of((unsigned char *)named,
        named_length), slice_of((unsigned char *)bits, bits_length),
        slice_of((unsigned char *)word, word_length), (unsigned char *)numbers);
}

/* cinorbis_first_order */
uint32_t cinorbis_first_order(uint32_t r, uint32_t m, const int16_t *readings,
    cinorbis_size readings_length, uint8_t *bits, cinorbis_size bits_length, uint8_t *word,
    cinorbis_size word_length, cinorbis_numbers *numbers) {
    return pumpbox_first_cinorbis_first_order(r, m, slice_of((unsigned char *)readings,
        readings_length), slice_of((unsigned char *)bits, bits_length),
        slice_of((unsigned char *)word, word_length), (unsigned char *)numbers);
}

/* cinorbis_index_find */
uint32_t cinorbis_index_find(cinorbis_size number, const uint8_t *capture,
    cinorbis_size capture_length, const cinorbis_size *table, cinorbis_size entries,
    cinorbis_entry *entry) {
    return pumpbox_indexing_cinorbis_index_find(number, slice_of((unsigned char *)capture,
        capture_length), slice_of((unsigned char *)table, entries), (unsigned char *)entry);
}

/* cinorbis_index_front */
uint32_t cinorbis_index_front(const uint8_t *capture, cinorbis_size capture_length,
    cinorbis_size *table, cinorbis_size entries, cinorbis_front *front) {
    return pumpbox_indexing_cinorbis_index_front(slice_of((unsigned char *)capture,
        capture_length), slice_of((unsigned char *)table, entries), (unsigned char *)front);
}

/* cinorbis_index_make */
uint32_t cinorbis_index_make(const uint8_t *capture, cinorbis_size capture_length,
    cinorbis_size *table, cinorbis_size entries, cinorbis_index *index) {
    return pumpbox_indexing_cinorbis_index_make(slice_of((unsigned char *)capture, capture_length),
        slice_of((unsigned char *)table, entries), (unsigned char *)index);
}

/* cinorbis_inverse */
uint32_t cinorbis_inverse(uint32_t r, uint32_t m, const uint8_t *word, cinorbis_size word_length,
    uint8_t *bits, cinorbis_size bits_length, cinorbis_numbers *numbers) {
    return pumpbox_cinorbis_inverse(r, m, slice_of((unsigned char *)word, word_length),
        slice_of((unsigned char *)bits, bits_length), (unsigned char *)numbers);
}

/* cinorbis_inverse_shortened */
uint32_t cinorbis_inverse_shortened(uint32_t r, uint32_t m, const uint8_t *named,
    cinorbis_size named_length, const uint8_t *word, cinorbis_size word_length, uint8_t *bits,
    cinorbis_size bits_length, cinorbis_numbers *numbers) {
    return pumpbox_shortening_cinorbis_inverse_shortened(r, m, slice_of((unsigned char *)named,
        named_length), slice_of((unsigned char *)word, word_length),
        slice_of((unsigned char *)bits, bits_length), (unsigned char *)numbers);
}

/* cinorbis_length */
cinorbis_size cinorbis_length(uint32_t m) {
    return pumpbox_lengths_cinorbis_length(m);
}

/* cinorbis_product_map */
uint32_t cinorbis_product_map(uint32_t m, const uint8_t *table1, cinorbis_size table1_length,
    const uint8_t *row1, cinorbis_size row1_length, const uint8_t *table2,
    cinorbis_size table2_length, const uint8_t *row2, cinorbis_size row2_length,
    uint8_t *table_out, cinorbis_size table_out_length, uint8_t *row_out,
    cinorbis_size row_out_length, cinorbis_numbers *numbers) {
    return pumpbox_reordering_cinorbis_product_map(m, slice_of((unsigned char *)table1,
        table1_length), slice_of((unsigned char *)row1, row1_length),
        slice_of((unsigned char *)table2, table2_length), slice_of((unsigned char *)row2,
        row2_length), slice_of((unsigned char *)table_out, table_out_length),
        slice_of((unsigned char *)row_out, row_out_length), (unsigned char *)numbers);
}

/* cinorbis_quick */
uint32_t cinorbis_quick(uint32_t r, uint32_t m, const int16_t *readings,
    cinorbis_size readings_length, uint8_t *bits, cinorbis_size bits_length, uint8_t *word,
    cinorbis_size word_length, cinorbis_numbers *numbers) {
    return pumpbox_cinorbis_quick(r, m, slice_of((unsigned char *)readings, readings_length),
        slice_of((unsigned char *)bits, bits_length), slice_of((unsigned char *)word, word_length),
        (unsigned char *)numbers);
}

/* cinorbis_quick_shortened */
uint32_t cinorbis_quick_shortened(uint32_t r, uint32_t m, const uint8_t *named,
    cinorbis_size named_length, const int16_t *readings, cinorbis_size readings_length,
    uint8_t *bits, cinorbis_size bits_length, uint8_t *word, cinorbis_size word_length,
    cinorbis_numbers *numbers) {
    return pumpbox_shortening_cinorbis_quick_shortened(r, m, slice_of((unsigned char *)named,
        named_length), slice_of((unsigned char *)readings, readings_length),
        slice_of((unsigned char *)bits, bits_length), slice_of((unsigned char *)word, word_length),
        (unsigned char *)numbers);
}

/* cinorbis_record */
uint32_t cinorbis_record(const uint8_t *bytes, cinorbis_size bytes_length, cinorbis_part *part) {
    return pumpbox_cinorbis_record(slice_of((unsigned char *)bytes, bytes_length),
        (unsigned char *)part);
}

/* cinorbis_record_length */
cinorbis_size cinorbis_record_length(uint32_t first_byte) {
    return pumpbox_lengths_cinorbis_record_length(first_byte);
}

/* cinorbis_reorder */
uint32_t cinorbis_reorder(uint32_t m, const uint8_t *table, cinorbis_size table_length,
    const uint8_t *row, cinorbis_size row_length, const int16_t *readings,
    cinorbis_size readings_length, int16_t *out, cinorbis_size out_length,
    cinorbis_numbers *numbers) {
    return pumpbox_reordering_cinorbis_reorder(m, slice_of((unsigned char *)table, table_length),
        slice_of((unsigned char *)row, row_length), slice_of((unsigned char *)readings,
        readings_length), slice_of((unsigned char *)out, out_length), (unsigned char *)numbers);
}

/* cinorbis_reorder_word */
uint32_t cinorbis_reorder_word(uint32_t m, const uint8_t *table, cinorbis_size table_length,
    const uint8_t *row, cinorbis_size row_length, const uint8_t *word, cinorbis_size word_length,
    uint8_t *out, cinorbis_size out_length, cinorbis_numbers *numbers) {
    return pumpbox_reordering_cinorbis_reorder_word(m, slice_of((unsigned char *)table,
        table_length), slice_of((unsigned char *)row, row_length), slice_of((unsigned char *)word,
        word_length), slice_of((unsigned char *)out, out_length), (unsigned char *)numbers);
}

/* cinorbis_rod_read */
uint32_t cinorbis_rod_read(uint32_t m, const int16_t *readings, cinorbis_size readings_length,
    uint64_t *position, cinorbis_numbers *numbers) {
    return pumpbox_rods_cinorbis_rod_read(m, slice_of((unsigned char *)readings, readings_length),
        (unsigned char *)position, (unsigned char *)numbers);
}

/* cinorbis_rod_write */
uint32_t cinorbis_rod_write(uint32_t m, uint32_t position, uint8_t *word,
    cinorbis_size word_length, cinorbis_numbers *numbers) {
    return pumpbox_rods_cinorbis_rod_write(m, position, slice_of((unsigned char *)word,
        word_length), (unsigned char *)numbers);
}

/* cinorbis_search */
uint32_t cinorbis_search(uint32_t r, uint32_t m, const int16_t *readings,
    cinorbis_size readings_length, uint8_t *bits, cinorbis_size bits_length, uint8_t *word,
    cinorbis_size word_length, uint8_t runner_up[256], cinorbis_numbers *numbers) {
    return pumpbox_cinorbis_search(r, m, slice_of((unsigned char *)readings, readings_length),
        slice_of((unsigned char *)bits, bits_length), slice_of((unsigned char *)word, word_length),
        (unsigned char *)runner_up, (unsigned char *)numbers);
}

/* cinorbis_search_float */
uint32_t cinorbis_search_float(uint32_t r, uint32_t m, const float *readings,
    cinorbis_size readings_length, uint8_t *bits, cinorbis_size bits_length, uint8_t *word,
    cinorbis_size word_length, uint8_t runner_up[256], cinorbis_numbers *numbers) {
    return pumpbox_floats_cinorbis_search_float(r, m, slice_of((unsigned char *)readings,
        readings_length), slice_of((unsigned char *)bits, bits_length),
        slice_of((unsigned char *)word, word_length), (unsigned char *)runner_up,
        (unsigned char *)numbers);
}

/* cinorbis_search_float_within */
uint32_t cinorbis_search_float_within(uint32_t r, uint32_t m, uint32_t allowed,
    const float *readings, cinorbis_size readings_length, uint8_t *bits, cinorbis_size bits_length,
    uint8_t *word, cinorbis_size word_length, uint8_t runner_up[256], cinorbis_numbers *numbers) {
    return pumpbox_floats_cinorbis_search_float_within(r, m, allowed,
        slice_of((unsigned char *)readings, readings_length), slice_of((unsigned char *)bits,
        bits_length), slice_of((unsigned char *)word, word_length), (unsigned char *)runner_up,
        (unsigned char *)numbers);
}

/* cinorbis_search_record */
uint32_t cinorbis_search_record(uint32_t allowed, const uint8_t *bytes, cinorbis_size bytes_length,
    uint8_t *bits, cinorbis_size bits_length, uint8_t *word, cinorbis_size word_length,
    uint8_t runner_up[256], cinorbis_numbers *numbers) {
    return pumpbox_cinorbis_search_record(allowed, slice_of((unsigned char *)bytes, bytes_length),
        slice_of((unsigned char *)bits, bits_length), slice_of((unsigned char *)word, word_length),
        (unsigned char *)runner_up, (unsigned char *)numbers);
}

/* cinorbis_search_shortened */
uint32_t cinorbis_search_shortened(uint32_t r, uint32_t m, const uint8_t *named,
    cinorbis_size named_length, const int16_t *readings, cinorbis_size readings_length,
    uint8_t *bits, cinorbis_size bits_length, uint8_t *word, cinorbis_size word_length,
    uint8_t runner_up[256], cinorbis_numbers *numbers) {
    return pumpbox_shortening_cinorbis_search_shortened(r, m, slice_of((unsigned char *)named,
        named_length), slice_of((unsigned char *)readings, readings_length),
        slice_of((unsigned char *)bits, bits_length), slice_of((unsigned char *)word, word_length),
        (unsigned char *)runner_up, (unsigned char *)numbers);
}

/* cinorbis_search_within */
uint32_t cinorbis_search_within(uint32_t r, uint32_t m, uint32_t allowed, const int16_t *readings,
    cinorbis_size readings_length, uint8_t *bits, cinorbis_size bits_length, uint8_t *word,
    cinorbis_size word_length, uint8_t runner_up[256], cinorbis_numbers *numbers) {
    return pumpbox_cinorbis_search_within(r, m, allowed, slice_of((unsigned char *)readings,
        readings_length), slice_of((unsigned char *)bits, bits_length),
        slice_of((unsigned char *)word, word_length), (unsigned char *)runner_up,
        (unsigned char *)numbers);
}

/* cinorbis_search_within_shortened */
uint32_t cinorbis_search_within_shortened(uint32_t r, uint32_t m, uint32_t allowed,
    const uint8_t *named, cinorbis_size named_length, const int16_t *readings,
    cinorbis_size readings_length, uint8_t *bits, cinorbis_size bits_length, uint8_t *word,
    cinorbis_size word_length, uint8_t runner_up[256], cinorbis_numbers *numbers) {
    return pumpbox_shortening_cinorbis_search_within_shortened(r, m, allowed,
        slice_of((unsigned char *)named, named_length), slice_of((unsigned char *)readings,
        readings_length), slice_of((unsigned char *)bits, bits_length),
        slice_of((unsigned char *)word, word_length), (unsigned char *)runner_up,
        (unsigned char *)numbers);
}

/* cinorbis_telegram_of_bits */
uint32_t cinorbis_telegram_of_bits(const uint8_t *bits, cinorbis_size bits_length,
    cinorbis_telegram *telegram, cinorbis_numbers *numbers) {
    return pumpbox_telegrams_cinorbis_telegram_of_bits(slice_of((unsigned char *)bits,
        bits_length), (unsigned char *)telegram, (unsigned char *)numbers);
}

/* cinorbis_telegram_read */
uint32_t cinorbis_telegram_read(const int16_t *readings, cinorbis_size readings_length,
    cinorbis_telegram *telegram, cinorbis_numbers *numbers) {
    return pumpbox_telegrams_cinorbis_telegram_read(slice_of((unsigned char *)readings,
        readings_length), (unsigned char *)telegram, (unsigned char *)numbers);
}

/* cinorbis_telegram_read_within */
uint32_t cinorbis_telegram_read_within(uint32_t allowed, const int16_t *readings,
    cinorbis_size readings_length, cinorbis_telegram *telegram, cinorbis_numbers *numbers) {
    return pumpbox_telegrams_cinorbis_telegram_read_within(allowed,
        slice_of((unsigned char *)readings, readings_length), (unsigned char *)telegram,
        (unsigned char *)numbers);
}

/* cinorbis_telegram_write */
uint32_t cinorbis_telegram_write(uint32_t cylinder, uint32_t direction, uint32_t tilt,
    uint8_t *word, cinorbis_size word_length, cinorbis_numbers *numbers) {
    return pumpbox_telegrams_cinorbis_telegram_write(cylinder, direction, tilt,
        slice_of((unsigned char *)word, word_length), (unsigned char *)numbers);
}

/* cinorbis_undo_map */
uint32_t cinorbis_undo_map(uint32_t m, const uint8_t *table, cinorbis_size table_length,
    const uint8_t *row, cinorbis_size row_length, uint8_t *table_out,
    cinorbis_size table_out_length, uint8_t *row_out, cinorbis_size row_out_length,
    cinorbis_numbers *numbers) {
    return pumpbox_reordering_cinorbis_undo_map(m, slice_of((unsigned char *)table, table_length),
        slice_of((unsigned char *)row, row_length), slice_of((unsigned char *)table_out,
        table_out_length), slice_of((unsigned char *)row_out, row_out_length),
        (unsigned char *)numbers);
}

/* cinorbis_unpack */
uint32_t cinorbis_unpack(const uint8_t *part, cinorbis_size part_length, int16_t *readings,
    cinorbis_size readings_length, cinorbis_numbers *numbers) {
    return pumpbox_unpacking_cinorbis_unpack(slice_of((unsigned char *)part, part_length),
        slice_of((unsigned char *)readings, readings_length), (unsigned char *)numbers);
}

/* cinorbis_version */
uint32_t cinorbis_version(void) {
    return pumpbox_lengths_cinorbis_version();
}

/* cinorbis_write_record */
uint32_t cinorbis_write_record(uint32_t r, uint32_t m, cinorbis_size place,
    const int16_t *readings, cinorbis_size readings_length, uint8_t *buffer,
    cinorbis_size buffer_length, cinorbis_written *written) {
    return pumpbox_writing_cinorbis_write_record(r, m, place, slice_of((unsigned char *)readings,
        readings_length), slice_of((unsigned char *)buffer, buffer_length),
        (unsigned char *)written);
}

/* cinorbis_index_append */
uint32_t cinorbis_index_append(uint32_t r, uint32_t m, const int16_t *readings,
    cinorbis_size readings_length, uint8_t *capture, cinorbis_size capture_length,
    cinorbis_size *table, cinorbis_size entries, cinorbis_index *index, cinorbis_written *written) {
    return pumpbox_indexing_cinorbis_index_append(r, m, slice_of((unsigned char *)readings,
        readings_length), slice_of((unsigned char *)capture, capture_length),
        slice_of((unsigned char *)table, entries), (unsigned char *)index,
        (unsigned char *)written);
}
