/* Stack and instructions of calls on a controller without an operating system, in qemu with
 * `-icount shift=0`, where an instruction takes 1 ns of the emulated time. On the Cortex-M boards
 * mps2-an385, an386 and an500 a timer counts at 25 MHz, so that a tick is 40 instructions, and on
 * mps2-an505 at 20 MHz, 50 instructions; RISC-V counts instructions itself. Instructions are not
 * cycles: a real core waits for its flash, its loads and its branches. bench/boxes runs this; it
 * prints the lines of bench/stack.c, and lines that begin with "time": visits, instructions, what
 * was called. */
#include "../examples/box/box.h"
#include "calls.h"

#if defined(__riscv)
static uint32_t now(void) {
    uint32_t count;
    __asm__ volatile("csrr %0, minstret" : "=r"(count));
    return count;
}
#define STACK_POINTER "mv %0, sp"
#else
/* 0: control, 1: value, which falls, 2: reload */
#if defined(__ARM_ARCH_8M_MAIN__)
#define TIMER ((volatile uint32_t *)0x50000000u)
#define A_TICK 50
#else
#define TIMER ((volatile uint32_t *)0x40000000u)
#define A_TICK 40
#endif
static uint32_t now(void) { return A_TICK * (UINT32_MAX - TIMER[1]); }
#define STACK_POINTER "mov %0, sp"
#endif

extern uint32_t box_bss_end[];
static uint32_t instructions, bytes;

/* between the painting and the counting only what is measured is called */
static __attribute__((noinline)) void measure(void (*call)(void)) {
    volatile uint8_t *here, *paint, *floor = (volatile uint8_t *)box_bss_end;
    __asm__ volatile(STACK_POINTER : "=r"(here));
    for (paint = floor; paint < here; paint++) *paint = 0x5a;
    numbers.visits = 0;
    uint32_t from = now();
    call();
    instructions = now() - from;
    for (paint = floor; paint < here && *paint == 0x5a; paint++) {
    }
    bytes = (uint32_t)(here - paint);
}

static void say_stack(const struct measured *call) {
    say(call->export), say(" "), say_number(call->k), say(" "), say_number(bytes), say(" ");
    say(call->name), say("\n");
}

static void time_of(const char *name, void (*call)(void)) {
    measure(call);
    say("time "), say_number((uint32_t)numbers.visits), say(" "), say_number(instructions);
    say(" "), say(name), say("\n");
}

/* the telegram of cylinder 5, 12.34 degrees to port, with readings of 100, and noise of up to so
 * much */
static int send(int noise) {
    write_telegram();
    for (int j = 0; j < 32; j++)
        readings[j] = (int16_t)((word[j] ? -100 : 100) + j * 67 % (2 * noise + 1) - noise);
    return refusal == CINORBIS_DONE;
}

/* the readings with the most visits that climbing found, 1,821; the whole tree has 131,759 */
static const int16_t hardest[32] = {0,   -1, 0, 0, 0,  0, 0, 0, 0, -1, 0,  0, -1, 0,  0, -1,
                                    -10, 1,  1, 7, 12, 0, 0, 9, 0, 6,  -9, 0, 0,  -9, 8, 0};

static void times(void) {
    if (!send(0)) box_exit(1);
    time_of("a clean telegram", read_telegram);
    if (!send(120)) box_exit(1);
    time_of("a noisy telegram", read_telegram);
    memcpy(readings, hardest, sizeof hardest);
    for (int j = 0; j < 32; j++) floats[j] = readings[j];
    time_of("a telegram, the hardest readings found", read_telegram);
    time_of("search RM(2,5), the same readings", search_2_5);
    time_of("search of floats RM(2,5), the same readings", search_float_2_5);
}

int main(void) {
#if !defined(__riscv)
    TIMER[2] = UINT32_MAX, TIMER[0] = 1;
#endif
    if (cinorbis_version() != CINORBIS_VERSION || !prepare()) return 1;
    for (size_t i = 0; i < CALLS; i++) {
        measure(calls[i].make);
        if (refusal != calls[i].refusal) return 2;
        say_stack(&calls[i]);
    }
    time_of("search RM(4,8), readings of no word", search_4_8);
    time_of("search RM(8,8), readings of no word", search);
    time_of("search, shortened, readings of no word", search_shortened);
    time_of("quick reading RM(4,8)", quick);
    time_of("quick reading, shortened", quick_shortened);
    time_of("first-order words RM(1,8)", first_order);
    time_of("encode RM(4,8)", encode);
    time_of("inverse RM(4,8)", inverse);
    time_of("encode, shortened", encode_shortened);
    time_of("inverse, shortened", inverse_shortened);
    time_of("writing a telegram", write_telegram);
    times();
    return 0;
}
