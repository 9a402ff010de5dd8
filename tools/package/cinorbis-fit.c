/* Which archives of tools/archive fit what this compiler makes, the best first, by what it says of
 * its target. It is compiled and never run: cinorbis-config.cmake and tools/archive look for the
 * text. That the code for a Cortex-M4 is built for a Cortex-M7 no macro tells. */
#if defined(__ARM_PCS_VFP)
#define FLOAT(cpu) cpu
#elif defined(__ARM_FP)
#define FLOAT(cpu) cpu "-softfp " cpu "-soft"
#else
#define FLOAT(cpu) cpu "-soft"
#endif

#if defined(_WIN32) || defined(__APPLE__) || __BYTE_ORDER__ != __ORDER_LITTLE_ENDIAN__
#define FIT "none"
#elif defined(__x86_64__) && !defined(__ILP32__)
#define FIT "x86_64"
#elif defined(__aarch64__) && !defined(__ILP32__)
#define FIT "aarch64"
#elif defined(__riscv_float_abi_double) && __riscv_xlen == 64 && defined(__riscv_compressed)
#define FIT "riscv64"
#elif !defined(__riscv_mul) && defined(__riscv)
#define FIT "none"
#elif defined(__riscv_float_abi_soft) && __riscv_xlen == 32 && defined(__riscv_compressed)
#define FIT "rv32imac"
#elif defined(__riscv_float_abi_single) && __riscv_xlen == 32 && defined(__riscv_compressed)
#define FIT "rv32imafc"
#elif defined(__ARM_ARCH_6M__)
#define FIT "cortex-m0plus"
#elif defined(__ARM_ARCH_7M__)
#define FIT "cortex-m3"
#elif defined(__ARM_ARCH_7EM__)
#define FIT FLOAT("cortex-m4")
#elif defined(__ARM_ARCH_8M_MAIN__)
#define FIT FLOAT("cortex-m33")
#elif defined(__ARM_PCS_VFP) && __ARM_ARCH_PROFILE == 'A'
#define FIT "armhf"
#else
#define FIT "none"
#endif

char cinorbis_fit[] = "cinorbis: " FIT " fits";
