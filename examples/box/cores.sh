# shellcheck shell=sh disable=SC2034
# Sourced by what builds and runs programs for 32-bit controllers: examples/box/run,
# tests/part-boxes, bench/boxes.

CORES="cortex-m0plus cortex-m3 cortex-m4 cortex-m7 cortex-m33 rv32imac rv32imafc"

# core CPU: sets gcc (the compiler), core (its words for the processor), emulator (the command that
# runs a program, up to its options), flash and ram (where the emulated board has them) and packages
# (of Debian). FLOAT is as in tools/archive. Returns 1, having said so, for an unknown core or
# FLOAT.
core() {
    gcc=arm-none-eabi-gcc emulator=qemu-system-arm flash=0x00000000 ram=0x20000000
    packages="gcc-arm-none-eabi libnewlib-arm-none-eabi qemu-system-arm"
    arm="-mcpu=$1 -mthumb"
    case ${FLOAT:-hard} in
    hard | softfp | soft) ;;
    *) echo "FLOAT is hard, softfp or soft, not $FLOAT" >&2 && return 1 ;;
    esac
    case $1 in
    cortex-m0plus) core="$arm -mfloat-abi=soft" board=microbit ;;
    cortex-m3) core="$arm -mfloat-abi=soft" board=mps2-an385 ;;
    cortex-m4) core="$arm -mfpu=fpv4-sp-d16 -mfloat-abi=${FLOAT:-hard}" board=mps2-an386 ;;
    cortex-m7) core="$arm -mfpu=fpv5-sp-d16 -mfloat-abi=${FLOAT:-hard}" board=mps2-an500 ;;
    cortex-m33)
        core="$arm -mfpu=fpv5-sp-d16 -mfloat-abi=${FLOAT:-hard}" board=mps2-an505
        flash=0x10000000 ram=0x38000000
        ;;
    rv32imac) core="-march=rv32imac -mabi=ilp32" board= ;;
    rv32imafc) core="-march=rv32imafc -mabi=ilp32f" board= ;;
    *) echo "no controller $1; there are $CORES" >&2 && return 1 ;;
    esac
    case $1 in rv32*)
        gcc=riscv64-unknown-elf-gcc core="$core -misa-spec=2.2 --specs=picolibc.specs"
        emulator=qemu-system-riscv32 board="virt -bios none" flash=0x80000000 ram=0x80400000
        packages="gcc-riscv64-unknown-elf picolibc-riscv64-unknown-elf qemu-system-misc"
        ;;
    esac
    # a program reaches the outside by semihosting alone
    emulator="$emulator -M $board -display none -serial none -monitor none -chardev stdio,id=out"
    semihosting="-semihosting-config enable=on,target=native,chardev=out"
}

# ready: returns 1, having said what to install, where the core's compiler, its C library or its
# emulator is missing
ready() {
    # shellcheck disable=SC2086
    if ! command -v "$gcc" >/dev/null || ! command -v "${emulator%% *}" >/dev/null ||
        ! echo '#include <string.h>' | "$gcc" $core -E -x c - >/dev/null 2>&1; then
        echo "a compiler or an emulator is missing: apt-get install $packages" >&2
        return 1
    fi
}
