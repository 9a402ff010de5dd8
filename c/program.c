/* The program cinorbis as one file of C99 for POSIX: a capture on standard input, a line for each
 * record on standard output. tools/c made it of the LLVM module of the proved program (checksum
 * 7707ecc128995fee). It is not edited: change the crates and run tools/c.
 * c/README.md says how to compile it. A function is named after its crate. */
#if defined(__cplusplus) || !defined(__STDC_VERSION__) || __STDC_VERSION__ < 199901L
#error "cinorbis: this is C99: compile it as C, with -std=c99 or a later standard"
#endif
#include <float.h>
#include <limits.h>
#include <stdbool.h>
#include <stddef.h>
#include <stdint.h>
#include <unistd.h>

#if SIZE_MAX != 0xffffffff && SIZE_MAX != 0xffffffffffffffff
#error "cinorbis: addresses have neither 64 nor 32 bits"
#endif
#if defined(__BYTE_ORDER__) && __BYTE_ORDER__ != __ORDER_LITTLE_ENDIAN__
#error "cinorbis: the processor has to keep the lowest byte first"
#endif
#if INT_MAX != 2147483647
#error "cinorbis: int has to have 32 bits"
#endif
#if defined(__FAST_MATH__) || defined(__FINITE_MATH_ONLY__) && __FINITE_MATH_ONLY__ > 0
#error "cinorbis: floats have to be added as it is written: compile without -ffast-math"
#endif
#if defined(FLT_EVAL_METHOD) &&                                                                    \
    (FLT_EVAL_METHOD < 0 || FLT_EVAL_METHOD == 1 || FLT_EVAL_METHOD == 2)
#error "cinorbis: floats have to be added as floats: on i386 compile with -msse2 -mfpmath=sse"
#endif

/* The loops over rows are for vectors, which gcc -O2 does not make of loops of any length: it is
 * asked for them there. -DCINORBIS_PLAIN leaves everything at the level of the command line. */
#if defined(__GNUC__) && !defined(__clang__) && defined(__OPTIMIZE__) &&                           \
    !defined(__OPTIMIZE_SIZE__) && !defined(CINORBIS_PLAIN) &&                                     \
    (defined(__SSE2__) || defined(__ARM_NEON))
#define VECTORS
#endif

/* A value of an enum is copied with the bytes that its case does not use, of which gcc warns. */
#if defined(__GNUC__) && !defined(__clang__)
#pragma GCC diagnostic ignored "-Wmaybe-uninitialized"
#endif

#if defined(__GNUC__)
#define copy __builtin_memcpy
#define fill __builtin_memset
#else
void *memcpy(void *restrict to, const void *restrict from, size_t n);
void *memset(void *at, int byte, size_t n);
#define copy memcpy
#define fill memset
#endif

/* what is proved never to be reached */
#if defined(__GNUC__)
#define stuck() __builtin_trap()
#define unreachable() __builtin_unreachable()
#else
#define stuck() for (;;)
#define unreachable() for (;;)
#endif

/* A number in memory, at a multiple of its size, whatever the memory was declared as. */
#if defined(__GNUC__)
#define GET(name, type)                                                                            \
    static inline type get_##name(const unsigned char *p) {                                        \
        typedef type __attribute__((__may_alias__)) any;                                           \
        return *(const any *)p;                                                                    \
    }
#define PUT(name, type)                                                                            \
    static inline void put_##name(unsigned char *p, type x) {                                      \
        typedef type __attribute__((__may_alias__)) any;                                           \
        *(any *)p = x;                                                                             \
    }
#else
#define GET(name, type)                                                                            \
    static inline type get_##name(const unsigned char *p) {                                        \
        type x;                                                                                    \
        copy(&x, p, sizeof x);                                                                     \
        return x;                                                                                  \
    }
#define PUT(name, type)                                                                            \
    static inline void put_##name(unsigned char *p, type x) { copy(p, &x, sizeof x); }
#endif

/* elements in memory: an address, and how many there are */
typedef struct {
    unsigned char *at;
    uint64_t n;
} slice;
typedef char slice_has_16_bytes[sizeof(slice) == 16 && offsetof(slice, n) == 8 ? 1 : -1];

typedef union {
    unsigned char b[1];
} bytes1_1;
typedef union {
    unsigned char b[2];
} bytes2_1;
typedef union {
    unsigned char b[6];
} bytes6_1;
typedef union {
    unsigned char b[7];
} bytes7_1;
typedef union {
    unsigned char b[8];
} bytes8_1;
typedef union {
    unsigned char b[8];
    uint32_t aligned;
} bytes8_4;
typedef union {
    unsigned char b[9];
} bytes9_1;
typedef union {
    unsigned char b[12];
    uint32_t aligned;
} bytes12_4;
typedef union {
    unsigned char b[16];
    uint64_t aligned;
} bytes16_8;
typedef union {
    unsigned char b[18];
    uint16_t aligned;
} bytes18_2;
typedef union {
    unsigned char b[20];
} bytes20_1;
typedef union {
    unsigned char b[22];
} bytes22_1;
typedef union {
    unsigned char b[23];
} bytes23_1;
typedef union {
    unsigned char b[24];
    uint64_t aligned;
} bytes24_8;
typedef union {
    unsigned char b[32];
    uint32_t aligned;
} bytes32_4;
typedef union {
    unsigned char b[56];
    uint64_t aligned;
} bytes56_8;
typedef union {
    unsigned char b[256];
} bytes256_1;
typedef union {
    unsigned char b[280];
    uint64_t aligned;
} bytes280_8;
typedef union {
    unsigned char b[512];
    uint16_t aligned;
} bytes512_2;
typedef union {
    unsigned char b[1024];
    uint32_t aligned;
} bytes1024_4;
typedef union {
    unsigned char b[4096];
} bytes4096_1;
typedef union {
    unsigned char b[65536];
} bytes65536_1;

GET(i16, uint16_t)
PUT(i16, uint16_t)
GET(i32, uint32_t)
PUT(i32, uint32_t)
GET(i64, uint64_t)
PUT(i64, uint64_t)
GET(ptr, unsigned char *)

static inline slice slice_of(unsigned char *at, uint64_t n) {
    slice s;
    s.at = at;
    s.n = n;
    return s;
}

/* the number with a sign that has these bits */
static inline int16_t signed16(uint16_t x) {
    int16_t y;
    copy(&y, &x, sizeof y);
    return y;
}

/* the number with a sign that has these bits */
static inline int32_t signed32(uint32_t x) {
    int32_t y;
    copy(&y, &x, sizeof y);
    return y;
}

/* the number with a sign that has these bits */
static inline int64_t signed64(uint64_t x) {
    int64_t y;
    copy(&y, &x, sizeof y);
    return y;
}

/* how many ones */
static inline uint8_t ones8(uint8_t x) {
    x = (uint8_t)(x - (x >> 1 & 0x55));
    x = (uint8_t)((x & 0x33) + (x >> 2 & 0x33));
    return (uint8_t)((x + (x >> 4)) & 0x0f);
}

/* how many ones */
static inline uint64_t ones64(uint64_t x) {
    x = x - (x >> 1 & UINT64_C(0x5555555555555555));
    x = (x & UINT64_C(0x3333333333333333)) + (x >> 2 & UINT64_C(0x3333333333333333));
    x = (x + (x >> 4)) & UINT64_C(0x0f0f0f0f0f0f0f0f);
    return (x * UINT64_C(0x0101010101010101)) >> 56;
}

/* how many zeros below the lowest one; 64 for 0 */
static inline uint64_t zeros_below64(uint64_t x) {
    return ones64(~x & (x - 1));
}

/* how many zeros above the highest one; 64 for 0 */
static inline uint64_t zeros_above64(uint64_t x) {
#if defined(__GNUC__)
    return x ? (uint64_t)__builtin_clzll(x) : 64;
#else
    uint64_t n = 64;
    for (; x; x >>= 1) n--;
    return n;
#endif
}

/* one of two values, both of which are made: no jump that a processor could guess wrong */
static inline uint8_t either_i8(bool first, uint8_t x, uint8_t y) {
    return (uint8_t)(y ^ ((x ^ y) & (0 - (unsigned)first)));
}

/* one of two values, both of which are made */
static inline uint32_t either_i32(bool first, uint32_t x, uint32_t y) {
    return y ^ ((x ^ y) & (0 - (uint32_t)first));
}

/* of two numbers with a sign */
static inline uint32_t greater_i32(uint32_t x, uint32_t y) {
    int32_t a = signed32(x), b = signed32(y);
    return (uint32_t)(a < b ? b : a);
}

/* of two numbers with a sign */
static inline uint32_t lesser_i32(uint32_t x, uint32_t y) {
    int32_t a = signed32(x), b = signed32(y);
    return (uint32_t)(a < b ? a : b);
}

/* A number as eight bytes, the lowest first, at any address: at once where that is one instruction,
 * since gcc -O3 takes the number apart and together again. */
static inline void put_eight(unsigned char *p, uint64_t x) {
#if defined(__GNUC__) && defined(__BYTE_ORDER__) && __BYTE_ORDER__ == __ORDER_LITTLE_ENDIAN__ &&   \
    (defined(__x86_64__) || defined(__aarch64__) || defined(__ARM_FEATURE_UNALIGNED))
    copy(p, &x, sizeof x);
#else
    p[0] = (uint8_t)(x & 255);
    p[1] = (uint8_t)(x >> 8 & 255);
    p[2] = (uint8_t)(x >> 16 & 255);
    p[3] = (uint8_t)(x >> 24 & 255);
    p[4] = (uint8_t)(x >> 32 & 255);
    p[5] = (uint8_t)(x >> 40 & 255);
    p[6] = (uint8_t)(x >> 48 & 255);
    p[7] = (uint8_t)(x >> 56 & 255);
#endif
}

static uint64_t system_write(uint32_t file, unsigned char *from, uint64_t n) {
    return (uint64_t)write((int)file, from, (size_t)n);
}

static uint64_t system_read(uint32_t file, unsigned char *to, uint64_t n) {
    return (uint64_t)read((int)file, to, (size_t)n);
}

static void walk_info_step(unsigned char *, unsigned char *, unsigned char *, unsigned char *,
    unsigned char *, unsigned char *, unsigned char *, unsigned char *, uint64_t, uint32_t);

/* libc::write */
static uint64_t libc_write(uint32_t a0, unsigned char *a1) {
    return system_write(a0, get_ptr(a1), get_i64(a1 + 8));
}

/* libc::read */
static uint64_t libc_read(uint32_t a0, unsigned char *a1) {
    return system_read(a0, get_ptr(a1), get_i64(a1 + 8));
}

/* io::buffer */
static bytes4096_1 io_buffer(void) {
    bytes4096_1 r0;
    fill(r0.b, 0, 4096);
    return r0;
}

/* io::copy */
static void io_copy(slice a0, uint64_t a1, slice a2, uint64_t a3, uint64_t a4) {
    uint64_t r2;
    r2 = 0;
    while (r2 < a4) {
        a2.at[a3 + r2] = a0.at[a1 + r2];
        r2 = r2 + 1;
    }
}

/* io::number::glyph */
static uint8_t io_number_glyph(uint64_t a0) {
    return either_i8(a0 < 10, (uint8_t)(48 + (uint8_t)a0), (uint8_t)(87 + (uint8_t)a0));
}

/* io::large_buffer */
static bytes65536_1 io_large_buffer(void) {
    bytes65536_1 r0;
    fill(r0.b, 0, 65536);
    return r0;
}

/* io::least */
static uint64_t io_least(uint64_t a0, uint64_t a1) {
    uint64_t r2;
    if (a0 < a1) {
        r2 = a0;
    } else {
        r2 = a1;
    }
    return r2;
}

/* io::clamp */
static uint64_t io_clamp(uint64_t a0, uint64_t a1) {
    uint64_t r2;
    if (0 < signed64(a0)) {
        r2 = io_least(a0, a1);
    } else {
        r2 = 0;
    }
    return r2;
}

/* io::count */
static uint64_t io_count(uint64_t a0, bytes16_8 a1) {
    return io_clamp(a0, get_i64(a1.b + 8));
}

/* io::number::places */
static uint64_t io_number_places(uint64_t a0, uint64_t a1, uint64_t a2) {
    uint64_t r1, r2, r5, r13;
    r1 = 1;
    if (a1 == 0) {
        stuck();
    }
    r2 = a0 / a1;
    while (0 < r2) {
        r13 = r2;
        if (a1 == 0) {
            stuck();
        }
        r2 = r13 / a1;
        r1 = r1 + 1;
    }
    if (r1 < a2) {
        r5 = a2;
    } else {
        r5 = r1;
    }
    return r5;
}

/* io::number::spell */
static void io_number_spell(uint64_t a0, uint64_t a1, uint64_t a2, slice a3) {
    uint64_t r1, r2, r14, r24;
    r1 = a2;
    r2 = a0;
    while (0 < r1) {
        r1 = r1 - 1;
        r14 = r2;
        if (a1 == 0) {
            stuck();
        }
        a3.at[r1] = io_number_glyph(r14 % a1);
        r24 = r2;
        if (a1 == 0) {
            stuck();
        }
        r2 = r24 / a1;
    }
}

/* io::number::decimal */
static uint64_t io_number_decimal(uint64_t a0, unsigned char *a1) {
    uint64_t r4;
    r4 = io_number_places(a0, 10, 1);
    io_number_spell(a0, 10, r4, slice_of(a1, 20));
    return r4;
}

/* io::write_from */
static uint64_t io_write_from(uint32_t a0, slice a1, uint64_t a2, slice a3) {
    slice r11;
    uint64_t r20;
    r20 = io_least(a1.n - a2, a3.n);
    io_copy(a1, a2, a3, 0, r20);
    r11.at = a3.at;
    r11.n = r20;
    return io_clamp(libc_write(a0, (unsigned char *)&r11), r20);
}

/* io::write_all */
static bool io_write_all(uint32_t a0, slice a1) {
    bytes4096_1 r3, r9;
    slice r4;
    uint64_t r2, r5, r25;
    if (a1.n == 0) {
        return true;
    }
    r25 = libc_write(a0, (unsigned char *)&a1);
    r2 = io_clamp(r25, a1.n);
    if (r2 == a1.n) {
        return true;
    }
    if (r2 == 0) {
        return false;
    }
    r9 = io_buffer();
    r3 = r9;
    r4.at = r3.b;
    r4.n = 4096;
    while (r2 < a1.n) {
        r5 = io_write_from(a0, a1, r2, r4);
        if (r5 == 0) {
            return false;
        }
        r2 = r2 + r5;
    }
    return true;
}

#if defined(VECTORS)
#pragma GCC push_options
#pragma GCC optimize("O3")
#endif

/* code::beyond, crates/code/src/lib.rt. Whether a reading is beyond the largest, of either sign. */
static bool code_beyond(uint16_t reading, uint16_t largest) {
    if (signed16(reading) < signed16((uint16_t)(0 - largest))) {
        return true;
    }
    return signed16(largest) < signed16(reading);
}

/* code::dimensions, crates/code/src/lib.rt. The numbers k of information bits of RM(0,m),
 * RM(1,m), .. RM(8,m). A match, since a constant table would be built on the stack at each use. */
static bytes18_2 code_dimensions(uint32_t m) {
    bytes18_2 r1;
    switch (m) {
    case 0:
        put_i16(r1.b, 1);
        put_i16(r1.b + 2, 1);
        put_i16(r1.b + 4, 1);
        put_i16(r1.b + 6, 1);
        put_i16(r1.b + 8, 1);
        put_i16(r1.b + 10, 1);
        put_i16(r1.b + 12, 1);
        put_i16(r1.b + 14, 1);
        put_i16(r1.b + 16, 1);
        break;
    case 1:
        put_i16(r1.b, 1);
        put_i16(r1.b + 2, 2);
        put_i16(r1.b + 4, 2);
        put_i16(r1.b + 6, 2);
        put_i16(r1.b + 8, 2);
        put_i16(r1.b + 10, 2);
        put_i16(r1.b + 12, 2);
        put_i16(r1.b + 14, 2);
        put_i16(r1.b + 16, 2);
        break;
    case 2:
        put_i16(r1.b, 1);
        put_i16(r1.b + 2, 3);
        put_i16(r1.b + 4, 4);
        put_i16(r1.b + 6, 4);
        put_i16(r1.b + 8, 4);
        put_i16(r1.b + 10, 4);
        put_i16(r1.b + 12, 4);
        put_i16(r1.b + 14, 4);
        put_i16(r1.b + 16, 4);
        break;
    case 3:
        put_i16(r1.b, 1);
        put_i16(r1.b + 2, 4);
        put_i16(r1.b + 4, 7);
        put_i16(r1.b + 6, 8);
        put_i16(r1.b + 8, 8);
        put_i16(r1.b + 10, 8);
        put_i16(r1.b + 12, 8);
        put_i16(r1.b + 14, 8);
        put_i16(r1.b + 16, 8);
        break;
    case 4:
        put_i16(r1.b, 1);
        put_i16(r1.b + 2, 5);
        put_i16(r1.b + 4, 11);
        put_i16(r1.b + 6, 15);
        put_i16(r1.b + 8, 16);
        put_i16(r1.b + 10, 16);
        put_i16(r1.b + 12, 16);
        put_i16(r1.b + 14, 16);
        put_i16(r1.b + 16, 16);
        break;
    case 5:
        put_i16(r1.b, 1);
        put_i16(r1.b + 2, 6);
        put_i16(r1.b + 4, 16);
        put_i16(r1.b + 6, 26);
        put_i16(r1.b + 8, 31);
        put_i16(r1.b + 10, 32);
        put_i16(r1.b + 12, 32);
        put_i16(r1.b + 14, 32);
        put_i16(r1.b + 16, 32);
        break;
    case 6:
        put_i16(r1.b, 1);
        put_i16(r1.b + 2, 7);
        put_i16(r1.b + 4, 22);
        put_i16(r1.b + 6, 42);
        put_i16(r1.b + 8, 57);
        put_i16(r1.b + 10, 63);
        put_i16(r1.b + 12, 64);
        put_i16(r1.b + 14, 64);
        put_i16(r1.b + 16, 64);
        break;
    case 7:
        put_i16(r1.b, 1);
        put_i16(r1.b + 2, 8);
        put_i16(r1.b + 4, 29);
        put_i16(r1.b + 6, 64);
        put_i16(r1.b + 8, 99);
        put_i16(r1.b + 10, 120);
        put_i16(r1.b + 12, 127);
        put_i16(r1.b + 14, 128);
        put_i16(r1.b + 16, 128);
        break;
    default:
        put_i16(r1.b, 1);
        put_i16(r1.b + 2, 9);
        put_i16(r1.b + 4, 37);
        put_i16(r1.b + 6, 93);
        put_i16(r1.b + 8, 163);
        put_i16(r1.b + 10, 219);
        put_i16(r1.b + 12, 247);
        put_i16(r1.b + 14, 255);
        put_i16(r1.b + 16, 256);
        break;
    }
    return r1;
}

/* code::Code::dimension, crates/code/src/lib.rt. k, the number of information bits. */
static uint64_t code_Code_dimension(bytes8_4 self) {
    bytes18_2 row, r4;
    uint64_t r;
    r4 = code_dimensions(get_i32(self.b + 4));
    row = r4;
    r = (uint64_t)get_i32(self.b);
    return (uint64_t)get_i16(row.b + r * 2);
}

/* code::Code::kind, crates/code/src/lib.rt. 1 at an information index, 0 at a frozen one. An
 * index fits a byte, and the compiler counts the ones of many bytes at once. */
static uint8_t code_Code_kind(bytes8_4 self, uint64_t i) {
    return get_i32(self.b + 4) - get_i32(self.b) <= (uint32_t)ones8((uint8_t)i);
}

/* code::Code::length, crates/code/src/lib.rt. n, the number of positions. */
static uint64_t code_Code_length(bytes8_4 self) {
    return UINT64_C(1) << (uint64_t)get_i32(self.b + 4);
}

/* code::Code::new, crates/code/src/lib.rt */
static bytes12_4 code_Code_new(uint32_t r, uint32_t m) {
    bytes12_4 result;
    bytes8_4 r2;
    if (8 < m) {
        result.b[0] = 1;
        return result;
    }
    if (m < r) {
        result.b[0] = 1;
        return result;
    }
    put_i32(r2.b, r);
    put_i32(r2.b + 4, m);
    result.b[0] = 0;
    copy(result.b + 4, r2.b, 8);
    return result;
}

/* code::put_kinds, crates/code/src/lib.rt. Fills the row with the kinds of all indices. */
static void code_put_kinds(bytes8_4 code, slice row) {
    uint64_t i;
    i = 0;
    while (i < row.n) {
        row.at[i] = code_Code_kind(code, i);
        i = i + 1;
    }
}

/* code::Refusal::shown, crates/code/src/lib.rt. What the refusal reports, by the rules' table. */
static bytes24_8 code_Refusal_shown(bytes16_8 self) {
    bytes24_8 none, r8;
    uint32_t penalty, visits, visits2, r47, r49, r59, r61, r71, r73, r83, r85, r95, r97, r109,
        r131, r133, r143, r145, r155, r157, r167, r169, r179, r181;
    uint64_t place, place2, r45, r57, r69, r107, r121, r129, r141, r153, r165, r177;
    put_i32(none.b, 0);
    put_i64(none.b + 8, 0);
    put_i32(none.b + 16, 0);
    put_i32(none.b + 20, 0);
    switch (self.b[0]) {
    case 0:
        r45 = get_i64(none.b + 8);
        r47 = get_i32(none.b + 16);
        r49 = get_i32(none.b + 20);
        put_i32(r8.b, 1);
        put_i64(r8.b + 8, r45);
        put_i32(r8.b + 16, r47);
        put_i32(r8.b + 20, r49);
        break;
    case 1:
        r57 = get_i64(none.b + 8);
        r59 = get_i32(none.b + 16);
        r61 = get_i32(none.b + 20);
        put_i32(r8.b, 2);
        put_i64(r8.b + 8, r57);
        put_i32(r8.b + 16, r59);
        put_i32(r8.b + 20, r61);
        break;
    case 2:
        r69 = get_i64(none.b + 8);
        r71 = get_i32(none.b + 16);
        r73 = get_i32(none.b + 20);
        put_i32(r8.b, 3);
        put_i64(r8.b + 8, r69);
        put_i32(r8.b + 16, r71);
        put_i32(r8.b + 20, r73);
        break;
    case 3:
        place = get_i64(self.b + 8);
        r83 = get_i32(none.b + 16);
        r85 = get_i32(none.b + 20);
        put_i32(r8.b, 4);
        put_i64(r8.b + 8, place);
        put_i32(r8.b + 16, r83);
        put_i32(r8.b + 20, r85);
        break;
    case 4:
        place2 = get_i64(self.b + 8);
        r95 = get_i32(none.b + 16);
        r97 = get_i32(none.b + 20);
        put_i32(r8.b, 5);
        put_i64(r8.b + 8, place2);
        put_i32(r8.b + 16, r95);
        put_i32(r8.b + 20, r97);
        break;
    case 5:
        visits = get_i32(self.b + 4);
        r107 = get_i64(none.b + 8);
        r109 = get_i32(none.b + 16);
        put_i32(r8.b, 6);
        put_i64(r8.b + 8, r107);
        put_i32(r8.b + 16, r109);
        put_i32(r8.b + 20, visits);
        break;
    case 6:
        penalty = get_i32(self.b + 4);
        visits2 = get_i32(self.b + 8);
        r121 = get_i64(none.b + 8);
        put_i32(r8.b, 7);
        put_i64(r8.b + 8, r121);
        put_i32(r8.b + 16, penalty);
        put_i32(r8.b + 20, visits2);
        break;
    case 7:
        r129 = get_i64(none.b + 8);
        r131 = get_i32(none.b + 16);
        r133 = get_i32(none.b + 20);
        put_i32(r8.b, 8);
        put_i64(r8.b + 8, r129);
        put_i32(r8.b + 16, r131);
        put_i32(r8.b + 20, r133);
        break;
    case 8:
        r141 = get_i64(none.b + 8);
        r143 = get_i32(none.b + 16);
        r145 = get_i32(none.b + 20);
        put_i32(r8.b, 9);
        put_i64(r8.b + 8, r141);
        put_i32(r8.b + 16, r143);
        put_i32(r8.b + 20, r145);
        break;
    case 9:
        r153 = get_i64(none.b + 8);
        r155 = get_i32(none.b + 16);
        r157 = get_i32(none.b + 20);
        put_i32(r8.b, 10);
        put_i64(r8.b + 8, r153);
        put_i32(r8.b + 16, r155);
        put_i32(r8.b + 20, r157);
        break;
    case 10:
        r165 = get_i64(none.b + 8);
        r167 = get_i32(none.b + 16);
        r169 = get_i32(none.b + 20);
        put_i32(r8.b, 11);
        put_i64(r8.b + 8, r165);
        put_i32(r8.b + 16, r167);
        put_i32(r8.b + 20, r169);
        break;
    case 11:
        r177 = get_i64(none.b + 8);
        r179 = get_i32(none.b + 16);
        r181 = get_i32(none.b + 20);
        put_i32(r8.b, 12);
        put_i64(r8.b + 8, r177);
        put_i32(r8.b + 16, r179);
        put_i32(r8.b + 20, r181);
        break;
    default:
        unreachable();
    }
    return r8;
}

/* code::Refusal::number, crates/code/src/lib.rt */
static uint32_t code_Refusal_number(bytes16_8 self) {
    bytes24_8 shown;
    shown = code_Refusal_shown(self);
    return get_i32(shown.b);
}

/* code::some_beyond, crates/code/src/lib.rt. Whether some reading is beyond the largest. */
static bool code_some_beyond(slice readings, uint16_t largest) {
    uint64_t i;
    uint8_t some;
    some = false;
    i = 0;
    while (i < readings.n) {
        some = (uint8_t)(some | code_beyond(get_i16(readings.at + i * 2), largest));
        i = i + 1;
    }
    return some;
}

/* code::first_beyond, crates/code/src/lib.rt. The lowest place of a reading beyond the largest,
 * or the length if there is none. */
static uint64_t code_first_beyond(slice readings, uint16_t largest) {
    uint64_t i;
    if (!code_some_beyond(readings, largest)) {
        return readings.n;
    }
    i = 0;
    while (i < readings.n) {
        if (code_beyond(get_i16(readings.at + i * 2), largest)) {
            return i;
        }
        i = i + 1;
    }
    return i;
}

/* code::first_bad_reading, crates/code/src/lib.rt */
static uint64_t code_first_bad_reading(slice readings) {
    return code_first_beyond(readings, 32767);
}

/* code::admit_for, crates/code/src/lib.rt. The tests 2 to 4, with this number of information
 * bits expected. */
static bytes24_8 code_admit_for(bytes8_4 code, uint64_t expected, slice readings, uint64_t bits,
    uint64_t word) {
    bytes16_8 r7, r8, r9, r10;
    bytes24_8 result;
    uint64_t n, place;
    n = code_Code_length(code);
    if (readings.n != n) {
        r7.b[0] = 1;
        result.b[0] = 1;
        copy(result.b + 8, r7.b, 16);
        return result;
    }
    if (bits != expected) {
        r8.b[0] = 2;
        result.b[0] = 1;
        copy(result.b + 8, r8.b, 16);
        return result;
    }
    if (word != n) {
        r9.b[0] = 2;
        result.b[0] = 1;
        copy(result.b + 8, r9.b, 16);
        return result;
    }
    place = code_first_bad_reading(readings);
    if (place < n) {
        r10.b[0] = 3;
        put_i64(r10.b + 8, place);
        result.b[0] = 1;
        copy(result.b + 8, r10.b, 16);
        return result;
    }
    result.b[0] = 0;
    copy(result.b + 4, code.b, 8);
    return result;
}

/* code::admit, crates/code/src/lib.rt. The tests 1 to 4 in their order, for readings and lent
 * outputs of these lengths. */
static bytes24_8 code_admit(uint32_t r, uint32_t m, slice readings, uint64_t bits, uint64_t word) {
    bytes12_4 r3;
    bytes16_8 r4;
    bytes24_8 result;
    bytes8_4 code;
    r3 = code_Code_new(r, m);
    switch (r3.b[0]) {
    case 0:
        copy(code.b, r3.b + 4, 8);
        return code_admit_for(code, code_Code_dimension(code), readings, bits, word);
    case 1:
        r4.b[0] = 0;
        result.b[0] = 1;
        copy(result.b + 8, r4.b, 16);
        return result;
    default:
        unreachable();
    }
}

/* bit_rows::copy, crates/bit_rows/src/lib.rt */
static void bit_rows_copy(slice from, slice to) {
    uint64_t i;
    i = 0;
    while (i < from.n) {
        to.at[i] = from.at[i];
        i = i + 1;
    }
}

/* bit_rows::fold_front, crates/bit_rows/src/lib.rt. Adds the second h bits of a word into its
 * first h, modulo 2; the word may be longer. */
static void bit_rows_fold_front(slice word, uint64_t h) {
    uint64_t j;
    j = 0;
    while (j < h) {
        word.at[j] = (uint8_t)((uint8_t)(word.at[j] + word.at[h + j]) % 2);
        j = j + 1;
    }
}

/* bit_rows::fold_blocks, crates/bit_rows/src/lib.rt. Folds each whole block of 2h bits: the word
 * from the block's start on is lent to be folded. */
static void bit_rows_fold_blocks(slice word, uint64_t h) {
    uint64_t b, n, start;
    n = word.n;
    b = h + h;
    start = 0;
    while (b <= n - start) {
        bit_rows_fold_front(slice_of(word.at + start, word.n - start), h);
        start = start + b;
    }
}

/* bit_rows::layer, crates/bit_rows/src/lib.rt. One layer. The compiler unrolls the fold of a
 * block where its step is a constant; only words of fewer than eight bits have other steps. */
static void bit_rows_layer(slice word, uint64_t h) {
    switch (h) {
    case 8:
        bit_rows_fold_blocks(word, 8);
        break;
    case 16:
        bit_rows_fold_blocks(word, 16);
        break;
    case 32:
        bit_rows_fold_blocks(word, 32);
        break;
    case 64:
        bit_rows_fold_blocks(word, 64);
        break;
    case 128:
        bit_rows_fold_blocks(word, 128);
        break;
    default:
        bit_rows_fold_blocks(word, h);
        break;
    }
}

/* bit_rows::layers, crates/bit_rows/src/lib.rt. This many layers, of which the first has step
 * `first`; each step is twice the one before. */
static void bit_rows_layers(slice word, uint64_t first, uint64_t count) {
    uint64_t h, left;
    h = first;
    left = count;
    while (0 < left) {
        bit_rows_layer(word, h);
        h = h + h;
        left = left - 1;
    }
}

/* bit_rows::pick_each, crates/bit_rows/src/lib.rt. Copies what a row has at the information
 * indices to the front of bits, one by one; gives how many they are. */
static uint64_t bit_rows_pick_each(slice kinds, slice row, slice bits) {
    uint64_t i, taken;
    i = 0;
    taken = 0;
    while (i < kinds.n) {
        if (kinds.at[i] != 0) {
            bits.at[taken] = row.at[i];
            taken = taken + 1;
        }
        i = i + 1;
    }
    return taken;
}

/* bit_rows::store, crates/bit_rows/src/lib.rt. Puts the eight bytes of a number in front. The
 * compiler makes one store of it. */
static void bit_rows_store(slice word, uint64_t x) {
    put_eight(word.at, x);
}

/* bit_rows::three_layers, crates/bit_rows/src/lib.rt. Eight bits, one in each byte of a number:
 * the first three layers, by bytes, pairs and fours. */
static uint64_t bit_rows_three_layers(uint64_t x) {
    uint64_t bytes, pairs;
    bytes = x ^ ((x >> 8) & UINT64_C(71777214294589695));
    pairs = bytes ^ ((bytes >> 16) & UINT64_C(281470681808895));
    return pairs ^ (pairs >> 32);
}

/* bit_rows::wide, crates/bit_rows/src/lib.rt */
static uint64_t bit_rows_wide(uint8_t x) {
    return (uint64_t)x;
}

/* bit_rows::load, crates/bit_rows/src/lib.rt. The first eight bytes as one number, the first
 * byte lowest. The compiler makes one load of bytes that are joined by `|`, and vector code of a
 * loop over such loads; it does not for their sum. */
static uint64_t bit_rows_load(slice word) {
    uint64_t r44, r55, r66, r77, r88, r99, r110;
    r44 = bit_rows_wide(*word.at);
    r55 = r44 | (bit_rows_wide(word.at[1]) << 8);
    r66 = r55 | (bit_rows_wide(word.at[2]) << 16);
    r77 = r66 | (bit_rows_wide(word.at[3]) << 24);
    r88 = r77 | (bit_rows_wide(word.at[4]) << 32);
    r99 = r88 | (bit_rows_wide(word.at[5]) << 40);
    r110 = r99 | (bit_rows_wide(word.at[6]) << 48);
    return r110 | (bit_rows_wide(word.at[7]) << 56);
}

/* bit_rows::eight, crates/bit_rows/src/lib.rt. The transform of the first eight bits of a word. */
static void bit_rows_eight(slice word) {
    uint64_t x;
    x = bit_rows_load(word);
    bit_rows_store(word, bit_rows_three_layers(x));
}

/* bit_rows::eights, crates/bit_rows/src/lib.rt. The transform of each block of eight bits. */
static void bit_rows_eights(slice word) {
    uint64_t at, n;
    n = word.n;
    at = 0;
    while (8 <= n - at) {
        bit_rows_eight(slice_of(word.at + at, word.n - at));
        at = at + 8;
    }
}

/* bit_rows::pick_eight, crates/bit_rows/src/lib.rt. The same for the first eight kinds. The five
 * rows of eight that codes are made of are constants here, and the compiler leaves neither loop
 * nor tests of them; any other eight keep both. */
static uint64_t bit_rows_pick_eight(slice kinds, slice row, slice bits) {
    bytes8_1 r4, r5, r6, r7, r8;
    uint64_t r10;
    r4.b[0] = 1;
    r4.b[1] = 1;
    r4.b[2] = 1;
    r4.b[3] = 1;
    r4.b[4] = 1;
    r4.b[5] = 1;
    r4.b[6] = 1;
    r4.b[7] = 1;
    r5.b[0] = 0;
    r5.b[1] = 1;
    r5.b[2] = 1;
    r5.b[3] = 1;
    r5.b[4] = 1;
    r5.b[5] = 1;
    r5.b[6] = 1;
    r5.b[7] = 1;
    r6.b[0] = 0;
    r6.b[1] = 0;
    r6.b[2] = 0;
    r6.b[3] = 1;
    r6.b[4] = 0;
    r6.b[5] = 1;
    r6.b[6] = 1;
    r6.b[7] = 1;
    r7.b[0] = 0;
    r7.b[1] = 0;
    r7.b[2] = 0;
    r7.b[3] = 0;
    r7.b[4] = 0;
    r7.b[5] = 0;
    r7.b[6] = 0;
    r7.b[7] = 1;
    r8.b[0] = 0;
    r8.b[1] = 0;
    r8.b[2] = 0;
    r8.b[3] = 0;
    r8.b[4] = 0;
    r8.b[5] = 0;
    r8.b[6] = 0;
    r8.b[7] = 0;
    switch (bit_rows_load(kinds)) {
    case 72340172838076673:
        r10 = bit_rows_pick_each(slice_of(r4.b, 8), row, bits);
        break;
    case 72340172838076672:
        r10 = bit_rows_pick_each(slice_of(r5.b, 8), row, bits);
        break;
    case 72340168543043584:
        r10 = bit_rows_pick_each(slice_of(r6.b, 8), row, bits);
        break;
    case 72057594037927936:
        r10 = bit_rows_pick_each(slice_of(r7.b, 8), row, bits);
        break;
    case 0:
        r10 = bit_rows_pick_each(slice_of(r8.b, 8), row, bits);
        break;
    default:
        r10 = bit_rows_pick_each(slice_of(kinds.at, UINT64_C(8)), row, bits);
        break;
    }
    return r10;
}

/* bit_rows::pick, crates/bit_rows/src/lib.rt. The bits of a row at the information indices,
 * eight indices at a time. */
static void bit_rows_pick(slice kinds, slice row, slice bits) {
    uint64_t at, n, taken;
    n = kinds.n;
    at = 0;
    taken = 0;
    while (8 <= n - at) {
        taken = taken + bit_rows_pick_eight(slice_of(kinds.at + at, kinds.n - at),
            slice_of(row.at + at, row.n - at), slice_of(bits.at + taken, bits.n - taken));
        at = at + 8;
    }
    (void)bit_rows_pick_each(slice_of(kinds.at + at, kinds.n - at), slice_of(row.at + at, row.n
        - at), slice_of(bits.at + taken, bits.n - taken));
}

/* bit_rows::put_sixteen, crates/bit_rows/src/lib.rt. The transform of the first sixteen bits of
 * a word, put in front of a row: eight bits in each of two numbers, and the fourth layer between
 * them. */
static void bit_rows_put_sixteen(slice word, slice row) {
    uint64_t x, y;
    x = bit_rows_three_layers(bit_rows_load(word));
    y = bit_rows_three_layers(bit_rows_load(slice_of(word.at + 8, word.n - 8)));
    bit_rows_store(row, x ^ y);
    bit_rows_store(slice_of(row.at + 8, row.n - 8), y);
}

/* bit_rows::put_sixteens, crates/bit_rows/src/lib.rt. The transform of each block of sixteen
 * bits of a word. */
static void bit_rows_put_sixteens(slice word, slice row) {
    uint64_t at, n;
    n = word.n;
    at = 0;
    while (16 <= n - at) {
        bit_rows_put_sixteen(slice_of(word.at + at, word.n - at), slice_of(row.at + at, row.n
            - at));
        at = at + 16;
    }
}

/* bit_rows::transform, crates/bit_rows/src/lib.rt. The transform of 2^m bits, in place, layer by
 * layer; from eight bits on the first three layers are made at once. */
static void bit_rows_transform(slice word, uint64_t m) {
    if (m < 3) {
        bit_rows_layers(word, 1, m);
        return;
    }
    bit_rows_eights(word);
    bit_rows_layers(word, 8, m - 3);
}

/* bit_rows::put_row, crates/bit_rows/src/lib.rt. The row u that a word comes from: the transform
 * is its own inverse. From sixteen bits on the first four layers are made at once, with no copy
 * of the word before them. */
static void bit_rows_put_row(slice word, slice row, uint64_t m) {
    if (m < 3) {
        bit_rows_copy(word, row);
        bit_rows_transform(row, m);
        return;
    }
    if (m == 3) {
        bit_rows_store(row, bit_rows_three_layers(bit_rows_load(word)));
        return;
    }
    bit_rows_put_sixteens(word, row);
    bit_rows_layers(row, 16, m - 4);
}

#if defined(VECTORS)
#pragma GCC pop_options
#endif

/* lines::digit_of, crates/lines/src/lib.rt */
static uint8_t lines_digit_of(uint8_t bit) {
    return either_i8(bit == 0, 48, 49);
}

/* lines::put_bits, crates/lines/src/lib.rt */
static uint64_t lines_put_bits(slice bits, slice out, uint64_t at) {
    uint64_t i;
    i = 0;
    while (i < bits.n) {
        out.at[at + i] = lines_digit_of(bits.at[i]);
        i = i + 1;
    }
    return at + i;
}

/* lines::put_text, crates/lines/src/lib.rt */
static uint64_t lines_put_text(slice text, slice out, uint64_t at) {
    uint64_t i;
    i = 0;
    while (i < text.n) {
        out.at[at + i] = text.at[i];
        i = i + 1;
    }
    return at + i;
}

/* lines::put_number, crates/lines/src/lib.rt */
static uint64_t lines_put_number(uint64_t n, slice out, uint64_t at) {
    bytes20_1 digits;
    uint64_t k;
    fill(digits.b, 0, 20);
    k = io_number_decimal(n, digits.b);
    return lines_put_text(slice_of(digits.b, k), out, at);
}

/* lines::put_field, crates/lines/src/lib.rt. A text and a number after it. */
static uint64_t lines_put_field(slice text, uint64_t n, slice out, uint64_t at) {
    uint64_t end;
    end = lines_put_text(text, out, at);
    return lines_put_number(n, out, end);
}

/* lines::put_figures, crates/lines/src/lib.rt */
static uint64_t lines_put_figures(uint32_t penalty, uint32_t gap, uint32_t visits, slice out,
    uint64_t at) {
    bytes1_1 r8;
    bytes8_1 r6, r7;
    bytes9_1 r5;
    uint64_t end, end2, end3;
    r5.b[0] = 32;
    r5.b[1] = 112;
    r5.b[2] = 101;
    r5.b[3] = 110;
    r5.b[4] = 97;
    r5.b[5] = 108;
    r5.b[6] = 116;
    r5.b[7] = 121;
    r5.b[8] = 32;
    r6.b[0] = 32;
    r6.b[1] = 109;
    r6.b[2] = 97;
    r6.b[3] = 114;
    r6.b[4] = 103;
    r6.b[5] = 105;
    r6.b[6] = 110;
    r6.b[7] = 32;
    r7.b[0] = 32;
    r7.b[1] = 118;
    r7.b[2] = 105;
    r7.b[3] = 115;
    r7.b[4] = 105;
    r7.b[5] = 116;
    r7.b[6] = 115;
    r7.b[7] = 32;
    r8.b[0] = 10;
    end = lines_put_field(slice_of(r5.b, 9), (uint64_t)penalty, out, at);
    end2 = lines_put_field(slice_of(r6.b, 8), (uint64_t)gap, out, end);
    end3 = lines_put_field(slice_of(r7.b, 8), (uint64_t)visits, out, end2);
    return lines_put_text(slice_of(r8.b, 1), out, end3);
}

/* lines::put_info, crates/lines/src/lib.rt */
static uint64_t lines_put_info(uint64_t w, slice bits, slice out, uint64_t at) {
    bytes6_1 r5;
    uint64_t end, end2;
    r5.b[0] = 32;
    r5.b[1] = 105;
    r5.b[2] = 110;
    r5.b[3] = 102;
    r5.b[4] = 111;
    r5.b[5] = 32;
    end = lines_put_number(w, out, at);
    end2 = lines_put_text(slice_of(r5.b, 6), out, end);
    return lines_put_bits(bits, out, end2);
}

/* lines::put_answer, crates/lines/src/lib.rt. The line of record w that was answered. */
static uint64_t lines_put_answer(uint64_t w, slice bits, uint32_t penalty, uint32_t gap,
    uint32_t visits, slice out, uint64_t at) {
    uint64_t end;
    end = lines_put_info(w, bits, out, at);
    return lines_put_figures(penalty, gap, visits, out, end);
}

/* lines::put_refused, crates/lines/src/lib.rt. The line of record w that was refused with the
 * number why. */
static uint64_t lines_put_refused(uint64_t w, uint32_t why, slice out, uint64_t at) {
    bytes1_1 r5;
    bytes9_1 r4;
    uint64_t end, end2;
    r4.b[0] = 32;
    r4.b[1] = 114;
    r4.b[2] = 101;
    r4.b[3] = 102;
    r4.b[4] = 117;
    r4.b[5] = 115;
    r4.b[6] = 101;
    r4.b[7] = 100;
    r4.b[8] = 32;
    r5.b[0] = 10;
    end = lines_put_number(w, out, at);
    end2 = lines_put_field(slice_of(r4.b, 9), (uint64_t)why, out, end);
    return lines_put_text(slice_of(r5.b, 1), out, end2);
}

/* lines::put_total, crates/lines/src/lib.rt */
static uint64_t lines_put_total(uint64_t read, uint64_t refused, slice out, uint64_t at) {
    bytes7_1 r4;
    bytes9_1 r5;
    uint64_t end, end2;
    r4.b[0] = 32;
    r4.b[1] = 114;
    r4.b[2] = 101;
    r4.b[3] = 97;
    r4.b[4] = 100;
    r4.b[5] = 44;
    r4.b[6] = 32;
    r5.b[0] = 32;
    r5.b[1] = 114;
    r5.b[2] = 101;
    r5.b[3] = 102;
    r5.b[4] = 117;
    r5.b[5] = 115;
    r5.b[6] = 101;
    r5.b[7] = 100;
    r5.b[8] = 10;
    end = lines_put_number(read, out, at);
    end2 = lines_put_field(slice_of(r4.b, 7), refused, out, end);
    return lines_put_text(slice_of(r5.b, 9), out, end2);
}

/* packing::part_length, crates/packing/src/lib.rt. What unpacking answers: the readings are
 * there, or why not. How many bytes follow a record's first. */
static uint64_t packing_part_length(bytes8_4 code) {
    return (3 * code_Code_length(code) + 1) / 2;
}

/* packing::reading_of, crates/packing/src/lib.rt. The reading in a field of 12 bits: two's
 * complement, except for the bottom rail. */
static uint16_t packing_reading_of(uint16_t field) {
    if (field == 2048) {
        return 63489;
    }
    if (field < 2048) {
        return field;
    }
    return (uint16_t)(field - 4096);
}

/* packing::wide, crates/packing/src/lib.rt */
static uint16_t packing_wide(uint8_t x) {
    return (uint16_t)x;
}

/* packing::put_reading_pairs, crates/packing/src/lib.rt. Two readings from three bytes per pass;
 * a last single one stays as it is. */
static void packing_put_reading_pairs(slice part, slice readings) {
    uint16_t a, b, c;
    uint64_t j, pairs;
    pairs = readings.n / 2;
    j = 0;
    while (j < pairs) {
        a = packing_wide(part.at[3 * j]);
        b = packing_wide(part.at[3 * j + 1]);
        c = packing_wide(part.at[3 * j + 2]);
        put_i16(readings.at + (2 * j) * 2, packing_reading_of((uint16_t)((uint16_t)((uint32_t)16
            * a) + (uint16_t)(b / 16))));
        put_i16(readings.at + (2 * j + 1) * 2,
            packing_reading_of((uint16_t)((uint16_t)((uint32_t)256 * (uint16_t)(b % 16)) + c)));
        j = j + 1;
    }
}

/* packing::put_readings, crates/packing/src/lib.rt. The readings of a packed part. */
static void packing_put_readings(slice part, slice readings) {
    uint16_t r50;
    uint64_t j, n;
    n = readings.n;
    packing_put_reading_pairs(part, readings);
    if (n % 2 == 1) {
        j = n / 2;
        r50 = (uint16_t)((uint32_t)16 * packing_wide(part.at[3 * j]));
        put_i16(readings.at + (2 * j) * 2, packing_reading_of((uint16_t)(r50
            + (uint16_t)(packing_wide(part.at[3 * j + 1]) / 16))));
    }
}

#if defined(VECTORS)
#pragma GCC push_options
#pragma GCC optimize("O3")
#endif

/* rows::greater, crates/rows/src/lib.rt */
static uint32_t rows_greater(uint32_t x, uint32_t y) {
    return greater_i32(x, y);
}

/* rows::hard, crates/rows/src/lib.rt. The bit that a value speaks for: a positive one and 0 for
 * 0, a negative one for 1. */
static uint8_t rows_hard(uint32_t value) {
    return signed32(value) < 0;
}

/* rows::lesser, crates/rows/src/lib.rt */
static uint32_t rows_lesser(uint32_t x, uint32_t y) {
    return lesser_i32(x, y);
}

/* rows::loss, crates/rows/src/lib.rt. The size of a value that the bit contradicts, else 0. */
static uint32_t rows_loss(uint32_t value, uint8_t bit) {
    return either_i32(bit == 0, either_i32(signed32(value) < 0, 0 - value, 0),
        either_i32(signed32(value) < 0, 0, value));
}

/* rows::lower, crates/rows/src/lib.rt. The smaller of |x| and |y|, with the sign of their
 * product: the greater of their lesser and of minus their greater, which needs no branch. */
static uint32_t rows_lower(uint32_t x, uint32_t y) {
    uint32_t turned;
    turned = 0 - rows_greater(x, y);
    return rows_greater(rows_lesser(x, y), turned);
}

/* rows::lower_row, crates/rows/src/lib.rt. The row of h sums for the lower half, from the row of
 * 2h sums. */
static void rows_lower_row(slice rows, uint64_t h) {
    uint32_t x, y;
    uint64_t j;
    j = 0;
    while (j < h) {
        x = get_i32(rows.at + (h + h + j) * 4);
        y = get_i32(rows.at + (h + h + (h + j)) * 4);
        put_i32(rows.at + (h + j) * 4, rows_lower(x, y));
        j = j + 1;
    }
}

/* rows::lower_top, crates/rows/src/lib.rt. The row of h sums for the lower half, from 2h
 * readings. */
static void rows_lower_top(slice readings, slice rows, uint64_t h) {
    uint32_t x, y;
    uint64_t j;
    j = 0;
    while (j < h) {
        x = (uint32_t)signed16(get_i16(readings.at + j * 2));
        y = (uint32_t)signed16(get_i16(readings.at + (h + j) * 2));
        put_i32(rows.at + (h + j) * 4, rows_lower(x, y));
        j = j + 1;
    }
}

/* rows::put_signs, crates/rows/src/lib.rt. The bits that a row speaks for. */
static void rows_put_signs(slice row, slice word) {
    uint64_t i;
    i = 0;
    while (i < word.n) {
        word.at[i] = rows_hard(get_i32(row.at + i * 4));
        i = i + 1;
    }
}

/* rows::upper, crates/rows/src/lib.rt. y + x where a is 0, else y - x. */
static uint32_t rows_upper(uint32_t x, uint32_t y, uint8_t a) {
    return either_i32(a == 0, y + x, y - x);
}

/* rows::upper_row, crates/rows/src/lib.rt. The row of h sums for the upper half, from the row of
 * 2h sums and the lower half's word. */
static void rows_upper_row(slice rows, uint64_t h, slice word) {
    uint32_t x, y;
    uint64_t j;
    j = 0;
    while (j < h) {
        x = get_i32(rows.at + (h + h + j) * 4);
        y = get_i32(rows.at + (h + h + (h + j)) * 4);
        put_i32(rows.at + (h + j) * 4, rows_upper(x, y, word.at[j]));
        j = j + 1;
    }
}

/* rows::upper_top, crates/rows/src/lib.rt. The row of h sums for the upper half, from 2h
 * readings and the lower half's word. */
static void rows_upper_top(slice readings, slice rows, uint64_t h, slice word) {
    uint32_t x, y;
    uint64_t j;
    j = 0;
    while (j < h) {
        x = (uint32_t)signed16(get_i16(readings.at + j * 2));
        y = (uint32_t)signed16(get_i16(readings.at + (h + j) * 2));
        put_i32(rows.at + (h + j) * 4, rows_upper(x, y, word.at[j]));
        j = j + 1;
    }
}

/* blocks::information::all_chosen, crates/blocks/src/information.rt. All n indices from i on
 * carry information. Without an early end, so that many are tested at once. */
static bool blocks_information_all_chosen(slice kinds, uint64_t i, uint64_t n) {
    uint64_t j;
    uint8_t all;
    all = true;
    j = 0;
    while (j < n) {
        all = (uint8_t)(all & (kinds.at[i + j] != 0));
        j = j + 1;
    }
    return all;
}

/* blocks::frozen::fifteen_frozen, crates/blocks/src/frozen.rt. The 15 indices from i on are
 * frozen. No early return, so that the compiler looks at all at once. */
static bool blocks_frozen_fifteen_frozen(unsigned char *kinds, uint64_t i) {
    uint64_t j;
    uint8_t some;
    some = false;
    j = 0;
    while (j < 15) {
        some = (uint8_t)(some | (kinds[i + j] != 0));
        j = j + 1;
    }
    return !some;
}

/* blocks::information::hard_four, crates/blocks/src/information.rt. The choices of four indices
 * whose word is the bits that their row speaks for, by straight code. */
static void blocks_information_hard_four(slice rows, slice bits) {
    uint8_t a, b, c, d;
    b = rows_hard(get_i32(rows.at + 20));
    d = rows_hard(get_i32(rows.at + 28));
    c = (uint8_t)((uint8_t)(rows_hard(get_i32(rows.at + 24)) + d) % 2);
    a = (uint8_t)((uint8_t)(rows_hard(get_i32(rows.at + 16)) + b) % 2);
    *bits.at = (uint8_t)((uint8_t)(a + c) % 2);
    bits.at[1] = (uint8_t)((uint8_t)(b + d) % 2);
    bits.at[2] = c;
    bits.at[3] = d;
}

/* blocks::information::hard_row, crates/blocks/src/information.rt. The same of n = 2^s indices. */
static void blocks_information_hard_row(slice rows, slice bits, uint64_t n, uint64_t s) {
    if (s == 2) {
        blocks_information_hard_four(rows, bits);
        return;
    }
    rows_put_signs(slice_of(rows.at + n * 4, n + n - n), bits);
    bit_rows_transform(bits, s);
}

/* blocks::frozen::lost, crates/blocks/src/frozen.rt. What the same bit everywhere loses at the
 * row of 16 sums. */
static uint32_t blocks_frozen_lost(unsigned char *rows, uint8_t bit) {
    uint32_t p;
    uint64_t j;
    p = 0;
    j = 0;
    while (j < 16) {
        p = p + rows_loss(get_i32(rows + (16 + j) * 4), bit);
        j = j + 1;
    }
    return p;
}

/* blocks::frozen::added, crates/blocks/src/frozen.rt. What n zeros add, by the row of 16 sums:
 * 16 what all of them lose there; 15, which the better of both bits may follow, what that one
 * loses everywhere. */
static uint32_t blocks_frozen_added(unsigned char *rows, uint64_t n) {
    uint32_t ones, zeros;
    zeros = blocks_frozen_lost(rows, 0);
    if (n == 16) {
        return zeros;
    }
    ones = blocks_frozen_lost(rows, 1);
    return ones < zeros ? ones : zeros;
}

/* blocks::information::put_hard, crates/blocks/src/information.rt. These choices at the n
 * indices from i on. */
static void blocks_information_put_hard(slice rows, slice path, uint64_t i, uint64_t n,
    uint64_t s) {
    blocks_information_hard_row(rows, slice_of(path.at + i, i + n - i), n, s);
}

/* blocks::frozen::put_zeros, crates/blocks/src/frozen.rt. Sixteen zeros from i on. */
static void blocks_frozen_put_zeros(unsigned char *path, uint64_t i) {
    uint64_t j;
    j = 0;
    while (j < 16) {
        path[i + j] = 0;
        j = j + 1;
    }
}

/* blocks::frozen::run, crates/blocks/src/frozen.rt. How many of the 16 indices from i on are
 * taken at once: all, where they are frozen; all but the last, where only that carries
 * information; else none. */
static uint64_t blocks_frozen_run(unsigned char *kinds, uint64_t i) {
    if (!blocks_frozen_fifteen_frozen(kinds, i)) {
        return 0;
    }
    if (kinds[i + 15] == 0) {
        return 16;
    }
    return 15;
}

/* memory::follows, crates/memory/src/lib.rt. Of the rows for index was, only those of the blocks
 * that start at i change for index i: the next larger block that holds i holds was, too. So it
 * is where i comes next, and where i starts the block behind the one that starts at was. */
static bool memory_follows(uint64_t was, uint64_t i) {
    if (i == 0) {
        return false;
    }
    return (was ^ i) <= (i ^ (i - 1));
}

/* memory::greater, crates/memory/src/lib.rt */
static uint64_t memory_greater(uint64_t a, uint64_t b) {
    uint64_t r2;
    if (a < b) {
        r2 = b;
    } else {
        r2 = a;
    }
    return r2;
}

/* memory::highest_one, crates/memory/src/lib.rt. The place of the highest one of x, or 0. */
static uint64_t memory_highest_one(uint64_t x) {
    return 63 - (uint64_t)(uint32_t)zeros_above64(x | 1);
}

/* memory::left_word, crates/memory/src/lib.rt. The word of the h bits that end before e. */
static void memory_left_word(slice path, slice word, uint64_t e, uint64_t h, uint64_t t) {
    uint64_t r11;
    r11 = e - h;
    bit_rows_put_row(slice_of(path.at + r11, e - r11), slice_of(word.at, h), t);
}

/* memory::lowest_one, crates/memory/src/lib.rt. The place of the lowest one of i. */
static uint64_t memory_lowest_one(uint64_t i) {
    return (uint64_t)(uint32_t)zeros_below64(i);
}

/* memory::pair, crates/memory/src/lib.rt. The same of two bits, by straight code, and by value:
 * the compiler keeps it in registers. */
static bytes2_1 memory_pair(slice path, uint64_t e) {
    bytes2_1 result;
    uint8_t a, b;
    b = path.at[e - 1];
    a = (uint8_t)((uint8_t)(path.at[e - 2] + b) % 2);
    result.b[0] = a;
    result.b[1] = b;
    return result;
}

/* memory::power, crates/memory/src/lib.rt. 2^m, the length of a row. */
static uint64_t memory_power(uint64_t m) {
    return UINT64_C(1) << m;
}

/* memory::row, crates/memory/src/lib.rt. The row of 2^t sums for index i, from the row of twice
 * as many. */
static void memory_row(slice rows, slice path, slice word, uint64_t t, uint64_t i) {
    uint64_t b, h, r17;
    h = memory_power(t);
    r17 = h;
    if (h == 0) {
        stuck();
    }
    b = i / r17;
    if (b % 2 == 1) {
        memory_left_word(path, word, b * h, h, t);
        rows_upper_row(rows, h, word);
        return;
    }
    rows_lower_row(rows, h);
}

/* memory::row_of_1, crates/memory/src/lib.rt. The row of one sum, from the row of two; a word of
 * one bit is that bit. */
static void memory_row_of_1(slice rows, slice path, uint64_t i) {
    uint64_t r24;
    if (i % 2 == 1) {
        r24 = i - 1;
        rows_upper_row(rows, 1, slice_of(path.at + r24, i - r24));
        return;
    }
    rows_lower_row(rows, 1);
}

/* memory::row_of_2, crates/memory/src/lib.rt. The row of two sums, from the row of four. */
static void memory_row_of_2(slice rows, slice path, uint64_t i) {
    bytes2_1 word, r6;
    uint64_t b;
    b = i / 2;
    if (b % 2 == 1) {
        r6 = memory_pair(path, b * 2);
        word = r6;
        rows_upper_row(rows, 2, slice_of(word.b, 2));
        return;
    }
    rows_lower_row(rows, 2);
}

/* memory::start_of_1, crates/memory/src/lib.rt. The same where i starts a block of one index and
 * none of two: one row. */
static void memory_start_of_1(slice rows, slice path, uint64_t i) {
    uint64_t r14;
    r14 = i - 1;
    rows_upper_row(rows, 1, slice_of(path.at + r14, i - r14));
}

/* memory::start_of_2, crates/memory/src/lib.rt. Of two and none of four: two rows. */
static void memory_start_of_2(slice rows, slice path, uint64_t i) {
    bytes2_1 word, r3;
    r3 = memory_pair(path, i);
    word = r3;
    rows_upper_row(rows, 2, slice_of(word.b, 2));
    rows_lower_row(rows, 1);
}

/* memory::top, crates/memory/src/lib.rt. Of the rows for index was, the highest that has to be
 * made again for index i: of a block that does not hold both, or that starts at i, where a bit
 * may have changed before it. */
static uint64_t memory_top(uint64_t m, uint64_t was, uint64_t i) {
    uint64_t r9;
    r9 = memory_highest_one(was ^ i);
    return memory_greater(r9, memory_lowest_one(i | memory_power(m - 1)));
}

/* memory::top_row, crates/memory/src/lib.rt. The same from all readings. */
static void memory_top_row(slice readings, slice rows, slice path, slice word, uint64_t t,
    uint64_t i) {
    uint64_t b, h, r18;
    h = memory_power(t);
    r18 = h;
    if (h == 0) {
        stuck();
    }
    b = i / r18;
    if (b % 2 == 1) {
        memory_left_word(path, word, b * h, h, t);
        rows_upper_top(readings, rows, h, word);
        return;
    }
    rows_lower_top(readings, rows, h);
}

/* memory::first_row, crates/memory/src/lib.rt. The highest row that is made. */
static void memory_first_row(slice readings, slice rows, slice path, slice word, uint64_t m,
    uint64_t t, uint64_t i) {
    uint64_t n;
    if (t + 1 == m) {
        n = memory_power(m);
        memory_top_row(slice_of(readings.at, n), rows, path, word, t, i);
        return;
    }
    memory_row(rows, path, word, t, i);
}

/* memory::make_rows, crates/memory/src/lib.rt. The row of 2^high sums and those below it down to
 * eight sums, by loops. */
static void memory_make_rows(slice readings, slice rows, slice path, slice word, uint64_t m,
    uint64_t high, uint64_t i) {
    uint64_t t;
    memory_first_row(readings, rows, path, word, m, high, i);
    t = high;
    while (3 < t) {
        t = t - 1;
        memory_row(rows, path, word, t, i);
    }
}

/* memory::start_of_more, crates/memory/src/lib.rt. Of 2^t and none of twice as many, t at least
 * 3: the row of 2^t sums, and all below it. These are lower rows, as no lower digit of i is 1. */
static void memory_start_of_more(slice readings, slice rows, slice path, slice word, uint64_t m,
    uint64_t t, uint64_t i) {
    uint64_t u;
    memory_first_row(readings, rows, path, word, m, t, i);
    u = t;
    while (3 < u) {
        u = u - 1;
        rows_lower_row(rows, memory_power(u));
    }
    rows_lower_row(rows, 4);
    rows_lower_row(rows, 2);
    rows_lower_row(rows, 1);
}

/* memory::word_of_4, crates/memory/src/lib.rt. And of four. */
static void memory_word_of_4(slice path, slice word, uint64_t e) {
    uint8_t a, b, c, d, q;
    q = path.at[e - 3];
    d = path.at[e - 1];
    c = (uint8_t)((uint8_t)(path.at[e - 2] + d) % 2);
    b = (uint8_t)((uint8_t)(q + d) % 2);
    a = (uint8_t)((uint8_t)((uint8_t)((uint8_t)(path.at[e - 4] + q) % 2) + c) % 2);
    *word.at = a;
    word.at[1] = b;
    word.at[2] = c;
    word.at[3] = d;
}

/* memory::row_of_4, crates/memory/src/lib.rt. The row of four sums for index i, from the row of
 * eight. Here and below rows of up to four sums are made with their length as a constant, so
 * that the compiler writes the loops out. */
static void memory_row_of_4(slice rows, slice path, slice word, uint64_t i) {
    uint64_t b;
    b = i / 4;
    if (b % 2 == 1) {
        memory_word_of_4(path, word, b * 4);
        rows_upper_row(rows, 4, word);
        return;
    }
    rows_lower_row(rows, 4);
}

/* memory::low_rows, crates/memory/src/lib.rt. The rows of less than 2^k sums, at most three of
 * them, for any index. */
static void memory_low_rows(slice rows, slice path, slice word, uint64_t k, uint64_t i) {
    if (k == 3) {
        memory_row_of_4(rows, path, word, i);
        memory_row_of_2(rows, path, i);
        memory_row_of_1(rows, path, i);
        return;
    }
    if (k == 2) {
        memory_row_of_2(rows, path, i);
        memory_row_of_1(rows, path, i);
        return;
    }
    memory_row_of_1(rows, path, i);
}

/* memory::few_rows, crates/memory/src/lib.rt. The row of 2^high sums and all below it, where m
 * is below 4: straight code makes them, save the highest of all, which is made from the
 * readings. */
static void memory_few_rows(slice readings, slice rows, slice path, slice word, uint64_t m,
    uint64_t high, uint64_t i) {
    uint64_t k;
    k = high + 1;
    if (k < m) {
        memory_low_rows(rows, path, word, k, i);
        return;
    }
    memory_first_row(readings, rows, path, word, m, high, i);
    if (0 < high) {
        memory_low_rows(rows, path, word, high, i);
    }
}

/* memory::any_value, crates/memory/src/lib.rt. The value at index i of the path, whichever index
 * the rows are for. Rows of up to four sums are made by straight code. */
static uint32_t memory_any_value(unsigned char *readings, unsigned char *rows, unsigned char *path,
    unsigned char *word, uint64_t m, uint64_t was, uint64_t i) {
    uint64_t high;
    if (m == 0) {
        return (uint32_t)signed16(get_i16(readings));
    }
    high = memory_top(m, was, i);
    if (m < 4) {
        memory_few_rows(slice_of(readings, 256), slice_of(rows, 256), slice_of(path, 256),
            slice_of(word, 256), m, high, i);
        return get_i32(rows + 4);
    }
    if (high < 3) {
        memory_low_rows(slice_of(rows, 256), slice_of(path, 256), slice_of(word, 256), high + 1, i);
        return get_i32(rows + 4);
    }
    memory_make_rows(slice_of(readings, 256), slice_of(rows, 256), slice_of(path, 256),
        slice_of(word, 256), m, high, i);
    memory_low_rows(slice_of(rows, 256), slice_of(path, 256), slice_of(word, 256), 3, i);
    return get_i32(rows + 4);
}

/* memory::start_of_4, crates/memory/src/lib.rt. Of four and none of eight: three rows. */
static void memory_start_of_4(slice rows, slice path, slice word, uint64_t i) {
    memory_word_of_4(path, word, i);
    rows_upper_row(rows, 4, word);
    rows_lower_row(rows, 2);
    rows_lower_row(rows, 1);
}

/* memory::value, crates/memory/src/lib.rt. The value at index i of the path. The rows are for
 * index was, and then for i. Most often only the rows of the blocks that start at i change: at
 * most three, of up to four sums, for seven indices in eight. Two places call any_value, so that
 * the compiler keeps it out of that short way. */
static uint32_t memory_value(unsigned char *readings, unsigned char *rows, unsigned char *path,
    unsigned char *word, uint64_t m, uint64_t was, uint64_t i) {
    if (m < 4) {
        return memory_any_value(readings, rows, path, word, m, was, i);
    }
    if (memory_follows(was, i)) {
        if (i % 2 == 1) {
            memory_start_of_1(slice_of(rows, 256), slice_of(path, 256), i);
            return get_i32(rows + 4);
        }
        if (i % 4 == 2) {
            memory_start_of_2(slice_of(rows, 256), slice_of(path, 256), i);
            return get_i32(rows + 4);
        }
        if (i % 8 == 4) {
            memory_start_of_4(slice_of(rows, 256), slice_of(path, 256), slice_of(word, 256), i);
            return get_i32(rows + 4);
        }
        memory_start_of_more(slice_of(readings, 256), slice_of(rows, 256), slice_of(path, 256),
            slice_of(word, 256), m, memory_lowest_one(i), i);
        return get_i32(rows + 4);
    }
    return memory_any_value(readings, rows, path, word, m, was, i);
}

/* walk::allows, crates/walk/src/lib.rt. n visits more are allowed: compared so that nothing
 * wraps. */
static bool walk_allows(unsigned char *state, uint32_t n) {
    uint32_t allowed, visits;
    allowed = get_i32(state + 28);
    if (allowed < n) {
        return false;
    }
    visits = get_i32(state + 12);
    return visits <= allowed - n;
}

/* walk::copy_front, crates/walk/src/lib.rt */
static void walk_copy_front(slice from, slice to, uint64_t n) {
    bit_rows_copy(slice_of(from.at, n), slice_of(to.at, n));
}

/* walk::copy, crates/walk/src/lib.rt. The first n bytes. */
static void walk_copy(unsigned char *from, unsigned char *to, uint64_t n) {
    walk_copy_front(slice_of(from, 256), slice_of(to, 256), n);
}

/* walk::dropped, crates/walk/src/lib.rt. The penalty is not below the second's; while no second
 * is held, that is above all penalties. */
static bool walk_dropped(unsigned char *state, uint32_t penalty) {
    return get_i32(state + 8) <= penalty;
}

/* walk::finish, crates/walk/src/lib.rt. A full path is held: as best, when the old best becomes
 * second, or as second. */
static void walk_finish(unsigned char *path, unsigned char *best, unsigned char *second,
    uint64_t n, uint32_t penalty, unsigned char *state) {
    uint32_t old;
    if (get_i32(state) == 0) {
        walk_copy(path, best, n);
        put_i32(state, 1);
        put_i32(state + 4, penalty);
        return;
    }
    old = get_i32(state + 4);
    put_i32(state, 2);
    if (penalty < old) {
        walk_copy(best, second, n);
        walk_copy(path, best, n);
        put_i32(state + 8, old);
        put_i32(state + 4, penalty);
        return;
    }
    walk_copy(path, second, n);
    put_i32(state + 8, penalty);
}

/* walk::full, crates/walk/src/lib.rt. The path has all its bits. */
static bool walk_full(unsigned char *state, uint64_t i) {
    uint32_t m;
    m = get_i32(state + 24);
    return i == (UINT64_C(1) << (uint64_t)m);
}

/* walk::has_row, crates/walk/src/lib.rt. There are more than n indices, so that a block of n has
 * a row of n sums. */
static bool walk_has_row(unsigned char *state, uint64_t n) {
    uint32_t m;
    m = get_i32(state + 24);
    return n < (UINT64_C(1) << (uint64_t)m);
}

/* walk::next, crates/walk/src/lib.rt */
static uint32_t walk_next(uint32_t visits, uint32_t allowed) {
    (void)allowed;
    return visits + 1;
}

/* walk::plus, crates/walk/src/lib.rt */
static uint32_t walk_plus(uint32_t visits, uint32_t n, uint32_t allowed) {
    (void)allowed;
    return visits + n;
}

/* walk::count, crates/walk/src/lib.rt. n visits more, which are allowed. */
static void walk_count(unsigned char *state, uint32_t n) {
    uint32_t allowed, visits;
    visits = get_i32(state + 12);
    allowed = get_i32(state + 28);
    put_i32(state + 12, walk_plus(visits, n, allowed));
}

/* walk::put, crates/walk/src/lib.rt */
static void walk_put(unsigned char *path, uint64_t i, uint8_t bit) {
    path[i] = bit;
}

/* walk::starts_block, crates/walk/src/lib.rt. A block of 16 indices starts at i and is not all
 * there are, so that it has a row of 16 sums. */
static bool walk_starts_block(unsigned char *state, uint64_t i) {
    if (i % 16 != 0) {
        return false;
    }
    return 4 < get_i32(state + 24);
}

/* walk::visit, crates/walk/src/lib.rt. One visit more, or out: tested before it is counted, so
 * that no allowance wraps. */
static bool walk_visit(unsigned char *state) {
    uint32_t allowed, visits;
    visits = get_i32(state + 12);
    allowed = get_i32(state + 28);
    if (visits < allowed) {
        put_i32(state + 12, walk_next(visits, allowed));
        return true;
    }
    put_i32(state + 16, 1);
    return false;
}

/* walk::visits, crates/walk/src/lib.rt. n visits more; or where not all are allowed, as many as
 * are, and out. */
static bool walk_visits(unsigned char *state, uint32_t n) {
    uint32_t allowed;
    if (walk_allows(state, n)) {
        walk_count(state, n);
        return true;
    }
    allowed = get_i32(state + 28);
    put_i32(state + 12, allowed);
    put_i32(state + 16, 1);
    return false;
}

/* walk::wide, crates/walk/src/lib.rt */
static uint64_t walk_wide(uint32_t x) {
    return (uint64_t)x;
}

/* walk::hard_block, crates/walk/src/lib.rt. Whether a block of n = 2^s indices that has a row
 * starts at i, for which the rows are made, and all of them carry information; if so, each has
 * the bit that its value speaks for. */
static bool walk_hard_block(unsigned char *kinds, unsigned char *rows, unsigned char *path,
    unsigned char *state, uint64_t i, uint32_t n, uint64_t s) {
    uint64_t length, r12;
    length = walk_wide(n);
    r12 = length;
    if (length == 0) {
        stuck();
    }
    if (i % r12 != 0) {
        return false;
    }
    if (!walk_has_row(state, length)) {
        return false;
    }
    if (!blocks_information_all_chosen(slice_of(kinds, 256), i, length)) {
        return false;
    }
    blocks_information_put_hard(slice_of(rows, 256), slice_of(path, 256), i, length, s);
    return true;
}

/* walk::hard_blocks, crates/walk/src/lib.rt. The largest such block of 16, 8, 4 or 2 indices:
 * how many it has; or 1, and nothing changes. */
static uint32_t walk_hard_blocks(unsigned char *kinds, unsigned char *rows, unsigned char *path,
    unsigned char *state, uint64_t i) {
    if (walk_hard_block(kinds, rows, path, state, i, 16, 4)) {
        return 16;
    }
    if (walk_hard_block(kinds, rows, path, state, i, 8, 3)) {
        return 8;
    }
    if (walk_hard_block(kinds, rows, path, state, i, 4, 2)) {
        return 4;
    }
    if (walk_hard_block(kinds, rows, path, state, i, 2, 1)) {
        return 2;
    }
    return 1;
}

/* walk::made_for, crates/walk/src/lib.rt. The rows are made for index i now. */
static uint64_t walk_made_for(unsigned char *state, uint64_t i) {
    uint32_t was;
    was = get_i32(state + 20);
    put_i32(state + 20, (uint32_t)i);
    return walk_wide(was);
}

/* walk::value_at, crates/walk/src/lib.rt. The value at index i of the path. */
static uint32_t walk_value_at(unsigned char *readings, unsigned char *rows, unsigned char *path,
    unsigned char *word, unsigned char *state, uint64_t i) {
    uint32_t m;
    uint64_t was;
    m = get_i32(state + 24);
    was = walk_made_for(state, i);
    return memory_value(readings, rows, path, word, walk_wide(m), was, i);
}

/* walk::zeros, crates/walk/src/lib.rt. Such a block starts at i, for which the rows are made and
 * a visit is counted. Where all are frozen, or all but the last, and no zero is dropped, and the
 * visits are allowed, the frozen ones are taken at once: the penalty after them times 256, and
 * how many. Otherwise 0, and nothing changes. */
static uint64_t walk_zeros(unsigned char *kinds, unsigned char *rows, unsigned char *path,
    unsigned char *state, uint64_t i, uint32_t penalty) {
    uint32_t more, reached;
    uint64_t n;
    n = blocks_frozen_run(kinds, i);
    if (n == 0) {
        return 0;
    }
    reached = penalty + blocks_frozen_added(rows, n);
    if (walk_dropped(state, reached)) {
        return 0;
    }
    more = (uint32_t)(n - 1);
    if (!walk_allows(state, more)) {
        return 0;
    }
    walk_count(state, more);
    blocks_frozen_put_zeros(path, i);
    return ((uint64_t)reached << 8) + n;
}

/* walk::taken, crates/walk/src/lib.rt. What is taken at once at i, for which the rows are made
 * and a visit is counted: of frozen indices as zeros gives it, of information indices how many,
 * and nothing is counted. It serves both steps, so that the compiler keeps it out of them, and
 * their frames stay as small as they are without it. */
static uint64_t walk_taken(unsigned char *kinds, unsigned char *rows, unsigned char *path,
    unsigned char *state, uint64_t i, uint32_t penalty) {
    if (kinds[i] == 0) {
        return walk_zeros(kinds, rows, path, state, i, penalty);
    }
    return (uint64_t)walk_hard_blocks(kinds, rows, path, state, i);
}

/* walk::hard_here, crates/walk/src/lib.rt. How many information indices from i on have the bits
 * that their values speak for, where that at i is put: those of the largest block that starts
 * there, or i alone. Only zeros need a penalty. */
static uint32_t walk_hard_here(unsigned char *kinds, unsigned char *rows, unsigned char *path,
    unsigned char *state, uint64_t i) {
    if (i % 2 != 0) {
        return 1;
    }
    return (uint32_t)walk_taken(kinds, rows, path, state, i, 0);
}

/* walk::frozen_step, crates/walk/src/lib.rt. The path of the first `from` bits, of this penalty,
 * goes on with a 0 at each frozen index: up to an information index or the end, or until an
 * extension is dropped or not allowed. */
static void walk_frozen_step(unsigned char *readings, unsigned char *kinds, unsigned char *rows,
    unsigned char *path, unsigned char *word, unsigned char *best, unsigned char *second,
    unsigned char *state, uint64_t from, uint32_t penalty) {
    uint32_t sum, value;
    uint64_t block, i;
    i = from;
    sum = penalty;
    while (!walk_full(state, i)) {
        if (kinds[i] != 0) {
            walk_info_step(readings, kinds, rows, path, word, best, second, state, i, sum);
            return;
        }
        if (!walk_visit(state)) return;
        value = walk_value_at(readings, rows, path, word, state, i);
        if (walk_starts_block(state, i)) {
            block = walk_taken(kinds, rows, path, state, i, sum);
            if (block != 0) {
                i = i + block % 256;
                sum = (uint32_t)(block >> 8);
                continue;
            }
        }
        sum = sum + rows_loss(value, 0);
        if (walk_dropped(state, sum)) return;
        walk_put(path, i, 0);
        i = i + 1;
    }
    walk_finish(path, best, second, i, sum, state);
}

/* walk::info_step, crates/walk/src/lib.rt. Both extensions at an information index i: first the
 * bit that the value speaks for, which adds nothing, so that it is not dropped; when everything
 * under it is done, the other. Where the walk under the first wanted a visit that is not
 * allowed, none is left for the other. Where the other is dropped at once, it is dropped then,
 * too: its visit is counted before, and nothing is left to do after the first. The same holds of
 * each index of a block that starts at i, since no sum of the block's row has a smaller size
 * than the value at i. */
static void walk_info_step(unsigned char *readings, unsigned char *kinds, unsigned char *rows,
    unsigned char *path, unsigned char *word, unsigned char *best, unsigned char *second,
    unsigned char *state, uint64_t i, uint32_t penalty) {
    uint32_t after, n, value;
    uint8_t first, gone, other;
    if (!walk_visit(state)) return;
    value = walk_value_at(readings, rows, path, word, state, i);
    first = rows_hard(value);
    other = (uint8_t)(1 - first);
    after = penalty + rows_loss(value, other);
    walk_put(path, i, first);
    gone = walk_dropped(state, after);
    if (gone) {
        n = walk_hard_here(kinds, rows, path, state, i);
        if (!walk_visits(state, n + n - 1)) return;
        walk_frozen_step(readings, kinds, rows, path, word, best, second, state, i + walk_wide(n),
            penalty);
        return;
    }
    walk_frozen_step(readings, kinds, rows, path, word, best, second, state, i + 1, penalty);
    if (!walk_visit(state)) return;
    if (walk_dropped(state, after)) return;
    walk_put(path, i, other);
    walk_frozen_step(readings, kinds, rows, path, word, best, second, state, i + 1, after);
}

/* walk::walk, crates/walk/src/lib.rt. The whole walk under an allowance. The rows of bits of the
 * full paths that it holds are in best and second. */
static void walk_walk(unsigned char *readings, unsigned char *kinds, uint32_t m, uint32_t allowed,
    unsigned char *best, unsigned char *second, unsigned char *state) {
    bytes1024_4 rows;
    bytes256_1 path, word;
    uint64_t r19, r22;
    r19 = 0;
    for (;;) {
        put_i32(rows.b + r19, 0);
        r22 = r19 + 4;
        r19 = r22;
        if (r22 == 1024) break;
    }
    fill(path.b, 0, 256);
    fill(word.b, 0, 256);
    put_i32(state + 8, 4294967295u);
    put_i32(state + 20, (1u << m) - 1);
    put_i32(state + 24, m);
    put_i32(state + 28, allowed);
    walk_frozen_step(readings, kinds, rows.b, path.b, word.b, best, second, state, 0, 0);
}

#if defined(VECTORS)
#pragma GCC pop_options
#endif

/* search::copy_readings, crates/search/src/lib.rt */
static void search_copy_readings(slice from, slice to) {
    uint64_t i;
    i = 0;
    while (i < from.n) {
        put_i16(to.at + i * 2, get_i16(from.at + i * 2));
        i = i + 1;
    }
}

/* search::put_front, crates/search/src/lib.rt */
static void search_put_front(slice kinds, slice best, uint64_t m, slice bits, slice word) {
    uint64_t n;
    n = word.n;
    bit_rows_pick(slice_of(kinds.at, n), slice_of(best.at, n), bits);
    bit_rows_put_row(slice_of(best.at, n), word, m);
}

/* search::put_best, crates/search/src/lib.rt. The word of the best row, from the first bytes of
 * an array, and its information bits. */
static void search_put_best(unsigned char *kinds, unsigned char *best, uint64_t m, slice bits,
    slice word) {
    search_put_front(slice_of(kinds, 256), slice_of(best, 256), m, bits, word);
}

/* search::WithRunnerUp::refused, crates/search/src/lib.rt. A refusal shows no runner-up. */
static bytes280_8 search_WithRunnerUp_refused(bytes16_8 why) {
    bytes24_8 r2;
    bytes256_1 r3;
    bytes280_8 result;
    r2.b[0] = 1;
    copy(r2.b + 8, why.b, 16);
    fill(r3.b, 0, 256);
    copy(result.b, r2.b, 24);
    copy(result.b + 24, r3.b, 256);
    return result;
}

/* search::second_front, crates/search/src/lib.rt */
static void search_second_front(slice kinds, slice second, uint64_t n, uint64_t k,
    slice runner_up) {
    bit_rows_pick(slice_of(kinds.at, n), slice_of(second.at, n), slice_of(runner_up.at, k));
}

/* search::put_second, crates/search/src/lib.rt. The k information bits of the second row, from
 * the first n bytes of an array, in front of zeros. */
static void search_put_second(unsigned char *kinds, unsigned char *second, uint64_t n, uint64_t k,
    unsigned char *runner_up) {
    search_second_front(slice_of(kinds, 256), slice_of(second, 256), n, k, slice_of(runner_up,
        256));
}

/* search::search_kinds, crates/search/src/lib.rt. The search over the words of any row of 2^m
 * kinds. The walk holds its rows in arrays of its own, so that the buffers keep their contents
 * if nothing is found. The runner-up's bits are put into an array of zeros that is lent: an
 * answer with 256 bytes would be copied at each return. */
static bytes24_8 search_search_kinds(unsigned char *readings, unsigned char *kinds, uint32_t m,
    uint32_t allowed, slice bits, slice word, unsigned char *runner_up) {
    bytes16_8 r17, r24;
    bytes24_8 result;
    bytes256_1 best, second;
    bytes32_4 state;
    uint32_t gap, out, penalty, visits;
    uint64_t r34, r37;
    fill(best.b, 0, 256);
    fill(second.b, 0, 256);
    r34 = 0;
    for (;;) {
        put_i32(state.b + r34, 0);
        r37 = r34 + 4;
        r34 = r37;
        if (r37 == 32) break;
    }
    walk_walk(readings, kinds, m, allowed, best.b, second.b, state.b);
    out = get_i32(state.b + 16);
    if (out != 0) {
        r17.b[0] = 5;
        put_i32(r17.b + 4, allowed);
        result.b[0] = 1;
        copy(result.b + 8, r17.b, 16);
        return result;
    }
    penalty = get_i32(state.b + 4);
    visits = get_i32(state.b + 12);
    gap = get_i32(state.b + 8) - penalty;
    if (gap == 0) {
        r24.b[0] = 6;
        put_i32(r24.b + 4, penalty);
        put_i32(r24.b + 8, visits);
        result.b[0] = 1;
        copy(result.b + 8, r24.b, 16);
        return result;
    }
    search_put_best(kinds, best.b, (uint64_t)m, bits, word);
    search_put_second(kinds, second.b, word.n, bits.n, runner_up);
    result.b[0] = 0;
    put_i32(result.b + 4, penalty);
    put_i32(result.b + 8, gap);
    put_i32(result.b + 12, visits);
    return result;
}

/* search::search_sound, crates/search/src/lib.rt */
static bytes280_8 search_search_sound(bytes8_4 code, uint32_t allowed, slice readings, slice bits,
    slice word) {
    bytes24_8 result;
    bytes256_1 kinds, runner_up, r26;
    bytes280_8 result2;
    bytes512_2 own;
    uint64_t n, r27, r30;
    fill(kinds.b, 0, 256);
    r27 = 0;
    for (;;) {
        put_i16(own.b + r27, 0);
        r30 = r27 + 2;
        r27 = r30;
        if (r30 == 512) break;
    }
    n = code_Code_length(code);
    code_put_kinds(code, slice_of(kinds.b, n));
    search_copy_readings(readings, slice_of(own.b, n));
    fill(runner_up.b, 0, 256);
    result = search_search_kinds(own.b, kinds.b, get_i32(code.b + 4), allowed, bits, word,
        runner_up.b);
    r26 = runner_up;
    copy(result2.b, result.b, 24);
    copy(result2.b + 24, r26.b, 256);
    return result2;
}

/* search::search_within, crates/search/src/lib.rt. Writes the information bits and the word of
 * least penalty into the lent buffers, if no other word has that penalty and the walk needs no
 * more visits than allowed. */
static bytes280_8 search_search_within(uint32_t r, uint32_t m, uint32_t allowed, slice readings,
    slice bits, slice word) {
    bytes16_8 why;
    bytes24_8 r6;
    bytes280_8 r9;
    bytes8_4 code;
    r6 = code_admit(r, m, readings, bits.n, word.n);
    switch (r6.b[0]) {
    case 1:
        copy(why.b, r6.b + 8, 16);
        r9 = search_WithRunnerUp_refused(why);
        break;
    case 0:
        copy(code.b, r6.b + 4, 8);
        r9 = search_search_sound(code, allowed, readings, bits, word);
        break;
    default:
        unreachable();
    }
    return r9;
}

/* record::code_of, crates/record/src/lib.rt */
static bytes12_4 record_code_of(uint8_t first) {
    uint32_t first2;
    first2 = (uint32_t)first;
    return code_Code_new(first2 % 16, first2 / 16);
}

/* record::framed, crates/record/src/lib.rt. Whether all bytes of the record are there, and its
 * pad bits are 0. */
static bytes24_8 record_framed(slice s, bytes8_4 code) {
    bytes16_8 r7, r12;
    bytes24_8 result;
    if (s.n - 1 < packing_part_length(code)) {
        r7.b[0] = 7;
        result.b[0] = 1;
        copy(result.b + 8, r7.b, 16);
        return result;
    }
    if (get_i32(code.b + 4) == 0) {
        if ((uint8_t)(s.at[2] % 16) != 0) {
            r12.b[0] = 8;
            result.b[0] = 1;
            copy(result.b + 8, r12.b, 16);
            return result;
        }
    }
    result.b[0] = 0;
    copy(result.b + 4, code.b, 8);
    return result;
}

/* record::frame, crates/record/src/lib.rt. The refusals 1, 8 and 9. */
static bytes24_8 record_frame(slice s) {
    bytes12_4 r6;
    bytes16_8 r5, r10;
    bytes24_8 result, r9;
    bytes8_4 code;
    if (s.n == 0) {
        r5.b[0] = 7;
        result.b[0] = 1;
        copy(result.b + 8, r5.b, 16);
        return result;
    }
    r6 = record_code_of(*s.at);
    switch (r6.b[0]) {
    case 0:
        copy(code.b, r6.b + 4, 8);
        r9 = record_framed(s, code);
        break;
    case 1:
        r10.b[0] = 0;
        r9.b[0] = 1;
        copy(r9.b + 8, r10.b, 16);
        break;
    default:
        unreachable();
    }
    return r9;
}

/* record::header_of, crates/record/src/lib.rt. The code of the record that the bytes begin with,
 * or the refusal. */
static bytes24_8 record_header_of(slice s) {
    return record_frame(s);
}

/* record::record_length, crates/record/src/lib.rt. How many bytes a record has, by its first
 * byte; 0 if that byte is refused. */
static uint64_t record_record_length(uint8_t first) {
    bytes12_4 r2;
    bytes8_4 code;
    uint64_t r3;
    r2 = record_code_of(first);
    switch (r2.b[0]) {
    case 0:
        copy(code.b, r2.b + 4, 8);
        r3 = 1 + packing_part_length(code);
        break;
    case 1:
        r3 = 0;
        break;
    default:
        unreachable();
    }
    return r3;
}

/* record::search_framed, crates/record/src/lib.rt. The same for a record whose frame is known:
 * its code is sound, and it is complete. */
static bytes280_8 record_search_framed(slice s, bytes8_4 code, uint32_t allowed, slice bits,
    slice word) {
    bytes512_2 readings;
    uint64_t end, n, r25, r28;
    r25 = 0;
    for (;;) {
        put_i16(readings.b + r25, 0);
        r28 = r25 + 2;
        r25 = r28;
        if (r28 == 512) break;
    }
    n = code_Code_length(code);
    end = 1 + packing_part_length(code);
    packing_put_readings(slice_of(s.at + 1, end - 1), slice_of(readings.b, n));
    return search_search_within(get_i32(code.b), get_i32(code.b + 4), allowed, slice_of(readings.b,
        n), bits, word);
}

/* program::is_last, crates/program/src/lib.rt */
static bool program_is_last(uint32_t number) {
    uint8_t r1;
    r1 = number == 1;
    if (!r1) {
        r1 = number == 8;
    }
    return r1;
}

/* program::refuse, crates/program/src/lib.rt */
static bytes24_8 program_refuse(uint64_t w, slice s, bytes16_8 why, slice out, uint64_t at) {
    bytes24_8 result;
    uint32_t number;
    uint64_t end, r25;
    uint8_t r27;
    number = code_Refusal_number(why);
    end = lines_put_refused(w, number, out, at);
    r25 = record_record_length(*s.at);
    r27 = program_is_last(number);
    put_i64(result.b, r25);
    put_i64(result.b + 8, end);
    result.b[16] = 0;
    result.b[17] = (uint8_t)r27;
    return result;
}

/* program::report, crates/program/src/lib.rt */
static bytes24_8 program_report(uint64_t w, slice s, slice bits, uint32_t penalty, uint32_t gap,
    uint32_t visits, slice out, uint64_t at) {
    bytes24_8 result;
    uint64_t end;
    end = lines_put_answer(w, bits, penalty, gap, visits, out, at);
    put_i64(result.b, record_record_length(*s.at));
    put_i64(result.b + 8, end);
    result.b[16] = 1;
    result.b[17] = 0;
    return result;
}

/* program::search_into, crates/program/src/lib.rt. The record's code is sound, and the lent
 * buffers have the code's lengths. */
static bytes24_8 program_search_into(uint64_t w, slice s, bytes8_4 code, slice bits, slice word,
    slice out, uint64_t at) {
    bytes16_8 why;
    bytes24_8 result, r16;
    bytes280_8 answer;
    uint32_t gap, penalty, visits;
    answer = record_search_framed(s, code, 1000000, bits, word);
    copy(result.b, answer.b, 24);
    switch (result.b[0]) {
    case 0:
        penalty = get_i32(result.b + 4);
        gap = get_i32(result.b + 8);
        visits = get_i32(result.b + 12);
        r16 = program_report(w, s, bits, penalty, gap, visits, out, at);
        break;
    case 1:
        copy(why.b, result.b + 8, 16);
        r16 = program_refuse(w, s, why, out, at);
        break;
    default:
        unreachable();
    }
    return r16;
}

/* program::search, crates/program/src/lib.rt */
static bytes24_8 program_search(uint64_t w, slice s, bytes8_4 code, slice out, uint64_t at) {
    bytes256_1 bits, word;
    uint64_t k, n;
    fill(bits.b, 0, 256);
    fill(word.b, 0, 256);
    k = code_Code_dimension(code);
    n = code_Code_length(code);
    return program_search_into(w, s, code, slice_of(bits.b, k), slice_of(word.b, n), out, at);
}

/* program::one, crates/program/src/lib.rt. The record that the bytes begin with. */
static bytes24_8 program_one(uint64_t w, slice s, slice out, uint64_t at) {
    bytes16_8 why;
    bytes24_8 r5, r6;
    bytes8_4 code;
    r5 = record_header_of(s);
    switch (r5.b[0]) {
    case 0:
        copy(code.b, r5.b + 4, 8);
        r6 = program_search(w, s, code, out, at);
        break;
    case 1:
        copy(why.b, r5.b + 8, 16);
        r6 = program_refuse(w, s, why, out, at);
        break;
    default:
        unreachable();
    }
    return r6;
}

/* rounds::after_read, crates/rounds/src/lib.rt. After a read into `fresh`, the bytes after the
 * unread ones, returned `got`. */
static bytes56_8 rounds_after_read(uint64_t got, unsigned char *fresh, bytes56_8 s) {
    bytes16_8 fresh2;
    bytes56_8 result;
    uint64_t k, more, r38, r40, r42, r72, r74, r76, r120, r122, r124;
    uint8_t r35, r45, r79, r83, r87, r117, r127, r131, r135;
    copy(fresh2.b, fresh, 16);
    k = get_i64(s.b + 8) - get_i64(s.b);
    if (signed64(got) < 0) {
        r35 = s.b[16] != 0;
        r38 = get_i64(s.b + 24);
        r40 = get_i64(s.b + 32);
        r42 = get_i64(s.b + 40);
        r45 = s.b[48] != 0;
        put_i64(result.b, 0);
        put_i64(result.b + 8, k);
        result.b[16] = (uint8_t)r35;
        put_i64(result.b + 24, r38);
        put_i64(result.b + 32, r40);
        put_i64(result.b + 40, r42);
        result.b[48] = (uint8_t)r45;
        result.b[49] = 0;
        result.b[50] = 1;
        return result;
    }
    if (got == 0) {
        r72 = get_i64(s.b + 24);
        r74 = get_i64(s.b + 32);
        r76 = get_i64(s.b + 40);
        r79 = s.b[48] != 0;
        r83 = s.b[49] != 0;
        r87 = s.b[50] != 0;
        put_i64(result.b, 0);
        put_i64(result.b + 8, k);
        result.b[16] = 1;
        put_i64(result.b + 24, r72);
        put_i64(result.b + 32, r74);
        put_i64(result.b + 40, r76);
        result.b[48] = (uint8_t)r79;
        result.b[49] = (uint8_t)r83;
        result.b[50] = (uint8_t)r87;
        return result;
    }
    more = io_count(got, fresh2);
    r117 = s.b[16] != 0;
    r120 = get_i64(s.b + 24);
    r122 = get_i64(s.b + 32);
    r124 = get_i64(s.b + 40);
    r127 = s.b[48] != 0;
    r131 = s.b[49] != 0;
    r135 = s.b[50] != 0;
    put_i64(result.b, 0);
    put_i64(result.b + 8, k + more);
    result.b[16] = (uint8_t)r117;
    put_i64(result.b + 24, r120);
    put_i64(result.b + 32, r122);
    put_i64(result.b + 40, r124);
    result.b[48] = (uint8_t)r127;
    result.b[49] = (uint8_t)r131;
    result.b[50] = (uint8_t)r135;
    return result;
}

/* rounds::after_write, crates/rounds/src/lib.rt. After the text that waits was handed to the
 * writer; done says whether it was written. */
static bytes56_8 rounds_after_write(bool done, bytes56_8 s) {
    bytes56_8 result;
    uint64_t r27, r33, r35, r70, r76, r78;
    uint8_t r23, r30, r38, r42, r73, r81;
    if (done) {
        r23 = s.b[48] == 0;
        r27 = get_i64(s.b + 8);
        r30 = s.b[16] != 0;
        r33 = get_i64(s.b + 32);
        r35 = get_i64(s.b + 40);
        r38 = s.b[48] != 0;
        r42 = s.b[50] != 0;
        put_i64(result.b, get_i64(s.b));
        put_i64(result.b + 8, r27);
        result.b[16] = (uint8_t)r30;
        put_i64(result.b + 24, 0);
        put_i64(result.b + 32, r33);
        put_i64(result.b + 40, r35);
        result.b[48] = (uint8_t)r38;
        result.b[49] = (uint8_t)r23;
        result.b[50] = (uint8_t)r42;
        return result;
    }
    r70 = get_i64(s.b + 8);
    r73 = s.b[16] != 0;
    r76 = get_i64(s.b + 32);
    r78 = get_i64(s.b + 40);
    r81 = s.b[48] != 0;
    put_i64(result.b, get_i64(s.b));
    put_i64(result.b + 8, r70);
    result.b[16] = (uint8_t)r73;
    put_i64(result.b + 24, 0);
    put_i64(result.b + 32, r76);
    put_i64(result.b + 40, r78);
    result.b[48] = (uint8_t)r81;
    result.b[49] = 0;
    result.b[50] = 1;
    return result;
}

/* rounds::complaint, crates/rounds/src/lib.rt. What is written to standard error: the text if an
 * error was reported, else nothing. */
static slice rounds_complaint(slice text, bytes56_8 s) {
    slice result;
    if (s.b[50] != 0) {
        return text;
    }
    result.at = text.at;
    result.n = UINT64_C(0);
    return result;
}

/* rounds::count, crates/rounds/src/lib.rt */
static bytes56_8 rounds_count(bytes56_8 s, bytes24_8 step) {
    bytes56_8 result;
    uint64_t next, r36, r38, r44, r62, r91, r93, r95, r112, r135, r137, r143, r161;
    uint8_t r41, r47, r51, r55, r98, r102, r106, r140, r146, r150, r154;
    next = get_i64(s.b) + get_i64(step.b);
    if (step.b[16] != 0) {
        r36 = get_i64(s.b + 32) + 1;
        r38 = get_i64(s.b + 8);
        r41 = s.b[16] != 0;
        r44 = get_i64(s.b + 40);
        r47 = s.b[48] != 0;
        r51 = s.b[49] != 0;
        r55 = s.b[50] != 0;
        r62 = get_i64(step.b + 8);
        put_i64(result.b, next);
        put_i64(result.b + 8, r38);
        result.b[16] = (uint8_t)r41;
        put_i64(result.b + 24, r62);
        put_i64(result.b + 32, r36);
        put_i64(result.b + 40, r44);
        result.b[48] = (uint8_t)r47;
        result.b[49] = (uint8_t)r51;
        result.b[50] = (uint8_t)r55;
        return result;
    }
    if (step.b[17] != 0) {
        r91 = get_i64(s.b + 40) + 1;
        r93 = get_i64(s.b + 8);
        r95 = get_i64(s.b + 32);
        r98 = s.b[48] != 0;
        r102 = s.b[49] != 0;
        r106 = s.b[50] != 0;
        r112 = get_i64(step.b + 8);
        put_i64(result.b, get_i64(s.b + 8));
        put_i64(result.b + 8, r93);
        result.b[16] = 1;
        put_i64(result.b + 24, r112);
        put_i64(result.b + 32, r95);
        put_i64(result.b + 40, r91);
        result.b[48] = (uint8_t)r98;
        result.b[49] = (uint8_t)r102;
        result.b[50] = (uint8_t)r106;
        return result;
    }
    r135 = get_i64(s.b + 40) + 1;
    r137 = get_i64(s.b + 8);
    r140 = s.b[16] != 0;
    r143 = get_i64(s.b + 32);
    r146 = s.b[48] != 0;
    r150 = s.b[49] != 0;
    r154 = s.b[50] != 0;
    r161 = get_i64(step.b + 8);
    put_i64(result.b, next);
    put_i64(result.b + 8, r137);
    result.b[16] = (uint8_t)r140;
    put_i64(result.b + 24, r161);
    put_i64(result.b + 32, r143);
    put_i64(result.b + 40, r135);
    result.b[48] = (uint8_t)r146;
    result.b[49] = (uint8_t)r150;
    result.b[50] = (uint8_t)r154;
    return result;
}

/* rounds::finish, crates/rounds/src/lib.rt. Puts the total after the lines that wait. */
static bytes56_8 rounds_finish(slice output, bytes56_8 s) {
    bytes56_8 result;
    uint64_t end, r27, r33, r35;
    uint8_t r30, r38, r42;
    end = lines_put_total(get_i64(s.b + 32), get_i64(s.b + 40), output, get_i64(s.b + 24));
    r27 = get_i64(s.b + 8);
    r30 = s.b[16] != 0;
    r33 = get_i64(s.b + 32);
    r35 = get_i64(s.b + 40);
    r38 = s.b[49] != 0;
    r42 = s.b[50] != 0;
    put_i64(result.b, get_i64(s.b));
    put_i64(result.b + 8, r27);
    result.b[16] = (uint8_t)r30;
    put_i64(result.b + 24, end);
    put_i64(result.b + 32, r33);
    put_i64(result.b + 40, r35);
    result.b[48] = 1;
    result.b[49] = (uint8_t)r38;
    result.b[50] = (uint8_t)r42;
    return result;
}

/* rounds::is_there, crates/rounds/src/lib.rt. Whether the next record is there, or all that will
 * come of it. */
static bool rounds_is_there(slice input, bytes56_8 s) {
    uint64_t at, end;
    at = get_i64(s.b);
    end = get_i64(s.b + 8);
    if (at == end) {
        return false;
    }
    if (s.b[16] != 0) {
        return true;
    }
    return record_record_length(input.at[at]) <= end - at;
}

/* rounds::move_to_front, crates/rounds/src/lib.rt. Moves the bytes from at to end to the front. */
static void rounds_move_to_front(slice buffer, uint64_t at, uint64_t end) {
    uint64_t i, n;
    n = end - at;
    i = 0;
    while (i < n) {
        buffer.at[i] = buffer.at[at + i];
        i = i + 1;
    }
}

/* rounds::next_round, crates/rounds/src/lib.rt. For an output of this many bytes. */
static bytes1_1 rounds_next_round(slice input, uint64_t output, bytes56_8 s) {
    bytes1_1 result;
    if (s.b[48] != 0) {
        result.b[0] = 0;
        return result;
    }
    if (output - get_i64(s.b + 24) < 512) {
        result.b[0] = 0;
        return result;
    }
    if (rounds_is_there(input, s)) {
        result.b[0] = 1;
        return result;
    }
    if (s.b[16] != 0) {
        result.b[0] = 2;
        return result;
    }
    if (0 < get_i64(s.b + 24)) {
        result.b[0] = 0;
        return result;
    }
    result.b[0] = 3;
    return result;
}

/* rounds::start, crates/rounds/src/lib.rt */
static bytes56_8 rounds_start(void) {
    bytes56_8 result;
    put_i64(result.b, 0);
    put_i64(result.b + 8, 0);
    result.b[16] = 0;
    put_i64(result.b + 24, 0);
    put_i64(result.b + 32, 0);
    put_i64(result.b + 40, 0);
    result.b[48] = 0;
    result.b[49] = 1;
    result.b[50] = 0;
    return result;
}

/* rounds::take_record, crates/rounds/src/lib.rt. Takes the next record. */
static bytes56_8 rounds_take_record(slice input, slice output, bytes56_8 s) {
    bytes24_8 step;
    uint64_t at, end;
    at = get_i64(s.b);
    end = get_i64(s.b + 8);
    step = program_one(get_i64(s.b + 32) + get_i64(s.b + 40), slice_of(input.at + at, end - at),
        output, get_i64(s.b + 24));
    return rounds_count(s, step);
}

/* rounds::text_of, crates/rounds/src/lib.rt. The text that is handed to the writer next. */
static slice rounds_text_of(slice output, bytes56_8 s) {
    slice result;
    uint64_t text;
    text = get_i64(s.b + 24);
    result.at = output.at;
    result.n = text;
    return result;
}

/* cinorbis::flush, crates/cinorbis/src/main.rt. Hands the text that waits to the writer. */
static bytes56_8 cinorbis_flush(slice output, bytes56_8 s) {
    bytes23_1 r5;
    bytes56_8 t;
    slice r6, r8;
    uint8_t done;
    r5.b[0] = 99;
    r5.b[1] = 105;
    r5.b[2] = 110;
    r5.b[3] = 111;
    r5.b[4] = 114;
    r5.b[5] = 98;
    r5.b[6] = 105;
    r5.b[7] = 115;
    r5.b[8] = 58;
    r5.b[9] = 32;
    r5.b[10] = 99;
    r5.b[11] = 97;
    r5.b[12] = 110;
    r5.b[13] = 110;
    r5.b[14] = 111;
    r5.b[15] = 116;
    r5.b[16] = 32;
    r5.b[17] = 119;
    r5.b[18] = 114;
    r5.b[19] = 105;
    r5.b[20] = 116;
    r5.b[21] = 101;
    r5.b[22] = 10;
    r6 = rounds_text_of(output, s);
    done = io_write_all(1, r6);
    t = rounds_after_write(done, s);
    r8 = rounds_complaint(slice_of(r5.b, 23), t);
    (void)io_write_all(2, r8);
    return t;
}

/* cinorbis::refill, crates/cinorbis/src/main.rt. Reads into the room after the bytes that are
 * not yet used. */
static bytes56_8 cinorbis_refill(slice input, bytes56_8 s) {
    bytes22_1 r6;
    bytes56_8 t;
    slice r12, r15, r17;
    uint64_t got, k;
    r6.b[0] = 99;
    r6.b[1] = 105;
    r6.b[2] = 110;
    r6.b[3] = 111;
    r6.b[4] = 114;
    r6.b[5] = 98;
    r6.b[6] = 105;
    r6.b[7] = 115;
    r6.b[8] = 58;
    r6.b[9] = 32;
    r6.b[10] = 99;
    r6.b[11] = 97;
    r6.b[12] = 110;
    r6.b[13] = 110;
    r6.b[14] = 111;
    r6.b[15] = 116;
    r6.b[16] = 32;
    r6.b[17] = 114;
    r6.b[18] = 101;
    r6.b[19] = 97;
    r6.b[20] = 100;
    r6.b[21] = 10;
    k = get_i64(s.b + 8) - get_i64(s.b);
    rounds_move_to_front(input, get_i64(s.b), get_i64(s.b + 8));
    r12.at = input.at + k;
    r12.n = input.n - k;
    got = libc_read(0, (unsigned char *)&r12);
    r15.at = input.at + k;
    r15.n = input.n - k;
    t = rounds_after_read(got, (unsigned char *)&r15, s);
    r17 = rounds_complaint(slice_of(r6.b, 22), t);
    (void)io_write_all(2, r17);
    return t;
}

/* cinorbis::round, crates/cinorbis/src/main.rt */
static bytes56_8 cinorbis_round(slice input, slice output, bytes56_8 s) {
    bytes1_1 r4;
    bytes56_8 r8;
    r4 = rounds_next_round(input, output.n, s);
    switch (r4.b[0]) {
    case 0:
        r8 = cinorbis_flush(output, s);
        break;
    case 1:
        r8 = rounds_take_record(input, output, s);
        break;
    case 2:
        r8 = rounds_finish(output, s);
        break;
    case 3:
        r8 = cinorbis_refill(input, s);
        break;
    default:
        unreachable();
    }
    return r8;
}

/* cinorbis::run, crates/cinorbis/src/main.rt. Nothing says that the input ends, so the rounds
 * are counted down, from a number that only more than 2^62 bytes use up. */
static bytes56_8 cinorbis_run(slice input, slice output) {
    bytes56_8 s;
    uint64_t left;
    s = rounds_start();
    left = UINT64_C(18446744073709551615);
    while (0 < left) {
        if (s.b[49] == 0) break;
        s = cinorbis_round(input, output, s);
        left = left - 1;
    }
    return s;
}

/* cinorbis::main, crates/cinorbis/src/main.rt */
static void cinorbis_main(void) {
    bytes65536_1 input, output, r2;
    r2 = io_large_buffer();
    input = r2;
    r2 = io_large_buffer();
    output = r2;
    (void)cinorbis_run(slice_of(input.b, 65536), slice_of(output.b, 65536));
}

/* main */
int main(void) {
    cinorbis_main();
    return 0;
}
