"""The text around the functions: the file's head, the conditions under which it does not compile, types and small helpers."""
import re

LIBRARY_HEAD = """\
/* Cinorbis as one file of C99: all calls of cinorbis.h. tools/c made it of the LLVM module of the
 * proved crates, the one that every archive of the library is compiled from (tools/checksum:
 * {checksum}). It is not edited: change the crates and run tools/c.
 * c/README.md says how to compile it. It asks for memcpy and memset, and includes nothing that a
 * freestanding C does not have. A function is named after its crate. */
"""
PROGRAM_HEAD = """\
/* The program cinorbis as one file of C99 for POSIX: a capture on standard input, a line for each
 * record on standard output. tools/c made it of the LLVM module of the proved program (checksum
 * {checksum}). It is not edited: change the crates and run tools/c.
 * c/README.md says how to compile it. A function is named after its crate. */
"""
C99 = """\
#if defined(__cplusplus) || !defined(__STDC_VERSION__) || __STDC_VERSION__ < 199901L
#error "cinorbis: this is C99: compile it as C, with -std=c99 or a later standard"
#endif
"""
LIBRARY_INCLUDES = """\
#include "cinorbis.h"
#include <float.h>
#include <limits.h>
#include <stdbool.h>
#include <stddef.h>
#include <stdint.h>

#if CINORBIS_VERSION != {version}
#error "cinorbis: cinorbis.c is of version {version}, and the cinorbis.h that was found is of another"
#endif
"""
PROGRAM_INCLUDES = """\
#include <float.h>
#include <limits.h>
#include <stdbool.h>
#include <stddef.h>
#include <stdint.h>
#include <unistd.h>

#if SIZE_MAX != 0xffffffff && SIZE_MAX != 0xffffffffffffffff
#error "cinorbis: addresses have neither 64 nor 32 bits"
#endif
#if defined(__BYTE_ORDER__) && __BYTE_ORDER__ != __ORDER_LITTLE_ENDIAN__
#error "cinorbis: the processor has to keep the lowest byte first"
#endif
"""
CONDITIONS = """\
#if INT_MAX != 2147483647
#error "cinorbis: int has to have 32 bits"
#endif
#if defined(__FAST_MATH__) || defined(__FINITE_MATH_ONLY__) && __FINITE_MATH_ONLY__ > 0
#error "cinorbis: floats have to be added as it is written: compile without -ffast-math"
#endif
#if defined(FLT_EVAL_METHOD) &&                                                                    \\
    (FLT_EVAL_METHOD < 0 || FLT_EVAL_METHOD == 1 || FLT_EVAL_METHOD == 2)
#error "cinorbis: floats have to be added as floats: on i386 compile with -msse2 -mfpmath=sse"
#endif
"""
TOOLS = """\
/* A value of an enum is copied with the bytes that its case does not use, of which gcc warns. */
#if defined(__GNUC__) && !defined(__clang__)
#pragma GCC diagnostic ignored "-Wmaybe-uninitialized"
#endif

#if defined(__GNUC__)
#define copy __builtin_memcpy
#define fill __builtin_memset
#else
void *memcpy(void *restrict to, const void *restrict from, size_t n);
void *memset(void *at, int byte, size_t n);
#define copy memcpy
#define fill memset
#endif

/* what is proved never to be reached */
#if defined(__GNUC__)
#define stuck() __builtin_trap()
#define unreachable() __builtin_unreachable()
#else
#define stuck() for (;;)
#define unreachable() for (;;)
#endif

/* A number in memory, at a multiple of its size, whatever the memory was declared as. */
#if defined(__GNUC__)
#define GET(name, type)                                                                            \\
    static inline type get_##name(const unsigned char *p) {                                        \\
        typedef type __attribute__((__may_alias__)) any;                                           \\
        return *(const any *)p;                                                                    \\
    }
#define PUT(name, type)                                                                            \\
    static inline void put_##name(unsigned char *p, type x) {                                      \\
        typedef type __attribute__((__may_alias__)) any;                                           \\
        *(any *)p = x;                                                                             \\
    }
#else
#define GET(name, type)                                                                            \\
    static inline type get_##name(const unsigned char *p) {                                        \\
        type x;                                                                                    \\
        copy(&x, p, sizeof x);                                                                     \\
        return x;                                                                                  \\
    }
#define PUT(name, type)                                                                            \\
    static inline void put_##name(unsigned char *p, type x) { copy(p, &x, sizeof x); }
#endif

/* elements in memory: an address, and how many there are */
typedef struct {
    unsigned char *at;
    uint64_t n;
} slice;
typedef char slice_has_16_bytes[sizeof(slice) == 16 && offsetof(slice, n) == 8 ? 1 : -1];

"""
READ_AND_WRITE = """\
static uint64_t system_write(uint32_t file, unsigned char *from, uint64_t n) {
    return (uint64_t)write((int)file, from, (size_t)n);
}

static uint64_t system_read(uint32_t file, unsigned char *to, uint64_t n) {
    return (uint64_t)read((int)file, to, (size_t)n);
}

"""
# each stands in the file if something after it uses it
HELPERS = """\
static inline slice slice_of(unsigned char *at, uint64_t n) {
    slice s;
    s.at = at;
    s.n = n;
    return s;
}

static inline slice get_slice(const unsigned char *p) {
    slice s;
    copy(&s, p, sizeof s);
    return s;
}

static inline void put_slice(unsigned char *p, slice s) {
    copy(p, &s, sizeof s);
}

/* the number with a sign that has these bits */
static inline int8_t signed8(uint8_t x) {
    int8_t y;
    copy(&y, &x, sizeof y);
    return y;
}

/* the number with a sign that has these bits */
static inline int16_t signed16(uint16_t x) {
    int16_t y;
    copy(&y, &x, sizeof y);
    return y;
}

/* the number with a sign that has these bits */
static inline int32_t signed32(uint32_t x) {
    int32_t y;
    copy(&y, &x, sizeof y);
    return y;
}

/* the number with a sign that has these bits */
static inline int64_t signed64(uint64_t x) {
    int64_t y;
    copy(&y, &x, sizeof y);
    return y;
}

/* how many ones */
static inline uint8_t ones8(uint8_t x) {
    x = (uint8_t)(x - (x >> 1 & 0x55));
    x = (uint8_t)((x & 0x33) + (x >> 2 & 0x33));
    return (uint8_t)((x + (x >> 4)) & 0x0f);
}

/* how many ones */
static inline uint32_t ones32(uint32_t x) {
    x = x - (x >> 1 & 0x55555555u);
    x = (x & 0x33333333u) + (x >> 2 & 0x33333333u);
    x = (x + (x >> 4)) & 0x0f0f0f0fu;
    return (x * 0x01010101u) >> 24;
}

/* how many ones */
static inline uint64_t ones64(uint64_t x) {
    x = x - (x >> 1 & UINT64_C(0x5555555555555555));
    x = (x & UINT64_C(0x3333333333333333)) + (x >> 2 & UINT64_C(0x3333333333333333));
    x = (x + (x >> 4)) & UINT64_C(0x0f0f0f0f0f0f0f0f);
    return (x * UINT64_C(0x0101010101010101)) >> 56;
}

/* how many zeros below the lowest one; 64 for 0 */
static inline uint64_t zeros_below64(uint64_t x) {
    return ones64(~x & (x - 1));
}

/* how many zeros above the highest one; 64 for 0 */
static inline uint64_t zeros_above64(uint64_t x) {
#if defined(__GNUC__)
    return x ? (uint64_t)__builtin_clzll(x) : 64;
#else
    uint64_t n = 64;
    for (; x; x >>= 1) n--;
    return n;
#endif
}

/* one of two values, both of which are made: no jump that a processor could guess wrong */
static inline uint8_t either_i8(bool first, uint8_t x, uint8_t y) {
    return (uint8_t)(y ^ ((x ^ y) & (0 - (unsigned)first)));
}

/* one of two values, both of which are made */
static inline uint32_t either_i32(bool first, uint32_t x, uint32_t y) {
    return y ^ ((x ^ y) & (0 - (uint32_t)first));
}

/* one of two values, both of which are made */
static inline float either_float(bool first, float x, float y) {
    uint32_t a, b;
    copy(&a, &x, sizeof a);
    copy(&b, &y, sizeof b);
    a = either_i32(first, a, b);
    copy(&x, &a, sizeof x);
    return x;
}

/* of two numbers with a sign */
static inline uint32_t greater_i32(uint32_t x, uint32_t y) {
    int32_t a = signed32(x), b = signed32(y);
    return (uint32_t)(a < b ? b : a);
}

/* of two numbers with a sign */
static inline uint32_t lesser_i32(uint32_t x, uint32_t y) {
    int32_t a = signed32(x), b = signed32(y);
    return (uint32_t)(a < b ? a : b);
}

/* A number as eight bytes, the lowest first, at any address: at once where that is one instruction,
 * since gcc -O3 takes the number apart and together again. */
static inline void put_eight(unsigned char *p, uint64_t x) {
#if defined(__GNUC__) && defined(__BYTE_ORDER__) && __BYTE_ORDER__ == __ORDER_LITTLE_ENDIAN__ &&   \\
    (defined(__x86_64__) || defined(__aarch64__) || defined(__ARM_FEATURE_UNALIGNED))
    copy(p, &x, sizeof x);
#else
    p[0] = (uint8_t)(x & 255);
    p[1] = (uint8_t)(x >> 8 & 255);
    p[2] = (uint8_t)(x >> 16 & 255);
    p[3] = (uint8_t)(x >> 24 & 255);
    p[4] = (uint8_t)(x >> 32 & 255);
    p[5] = (uint8_t)(x >> 40 & 255);
    p[6] = (uint8_t)(x >> 48 & 255);
    p[7] = (uint8_t)(x >> 56 & 255);
#endif
}

"""
# Where the time of a search goes: there gcc -O2 is asked for the vectors that it makes at -O3 (docs/DECISIONS.md says why).
HOT = {"code", "encode", "bit_rows", "rows", "float_rows", "blocks", "memory", "float_memory", "quick", "walk", "float_walk", "first_order"}
VECTORS = """\
/* The loops over rows are for vectors, which gcc -O2 does not make of loops of any length: it is
 * asked for them there. -DCINORBIS_PLAIN leaves everything at the level of the command line. */
#if defined(__GNUC__) && !defined(__clang__) && defined(__OPTIMIZE__) &&                           \\
    !defined(__OPTIMIZE_SIZE__) && !defined(CINORBIS_PLAIN) &&                                     \\
    (defined(__SSE2__) || defined(__ARM_NEON))
#define VECTORS
#endif

"""
VECTORS_ON = '#if defined(VECTORS)\n#pragma GCC push_options\n#pragma GCC optimize("O3")\n#endif\n\n'
VECTORS_OFF = "#if defined(VECTORS)\n#pragma GCC pop_options\n#endif\n\n"


def used_helpers(body):
    """The helpers that the functions use, and those that these use, in their order."""
    helpers = re.findall(r"(?:/\*(?:(?!\*/).)*\*/\n)?static inline .*?\n}\n\n", HELPERS, re.S)
    wanted, text = [], body
    for helper in reversed(helpers):
        name = re.search(r"(\w+)\(", helper[helper.index("static"):])[1]
        if re.search(rf"\b{name}\(", text):
            wanted.append(helper)
            text += helper
    return "".join(reversed(wanted))


def union(kind):
    """The type of so many bytes, aligned as the module says."""
    size, align = (int(n) for n in re.findall(r"\d+", kind))
    aligned = "" if align == 1 else f"    uint{8 * align}_t aligned;\n"
    return f"typedef union {{\n    unsigned char b[{size}];\n{aligned}}} {kind};\n"


def comment(text):
    lines, line = [], "/*"
    for word in text.replace("*/", "* /").split():
        if len(line) + len(word) > 96:
            lines.append(line)
            line = " *"
        line += " " + word
    return "\n".join(lines + [line + " */"])


def wrapped(line, width=100):
    """A long line in several, which end at commas or before signs."""
    out, indent = [], " " * (len(line) - len(line.lstrip()) + 4)
    while len(line) > width:
        cuts = [found.end() for found in re.finditer(r", | (?=[-+*/|&<>=!?:]+ )", line[:width]) if found.end() > len(indent)]
        if not cuts:
            break
        out.append(line[:cuts[-1]].rstrip())
        line = indent + line[cuts[-1]:]
    return out + [line]
