/* Start-up of a controller without an operating system, a Cortex-M or a RISC-V: the vectors, the
 * FPU switched on, data copied from flash, bss cleared, main called. */
#include "box.h"

extern uint32_t box_stack_top[], box_data[], box_data_end[], box_data_in_flash[], box_bss[],
    box_bss_end[];
int main(void);
void box_start(void);

/* Any fault ends the emulator with a status of its own, so that it cannot pass for an answer. A
 * real box would switch its valves to rest here. */
__attribute__((aligned(4))) static void fault(void) { box_exit(99); }

void box_start(void) {
#if defined(__riscv)
    __asm__ volatile("csrw mtvec, %0" : : "r"(fault));
#if defined(__riscv_flen)
    __asm__ volatile("csrs mstatus, %0" : : "r"(1u << 13)); /* FS: the FPU on */
#endif
#elif defined(__ARM_FP)
    *(volatile uint32_t *)0xE000ED88u |= 0xFu << 20; /* CPACR: full access to CP10 and CP11 */
    __asm__ volatile("dsb\n\tisb" ::: "memory");
#endif
    const uint32_t *from = box_data_in_flash;
    for (uint32_t *to = box_data; to < box_data_end; to++) *to = *from++;
    for (uint32_t *to = box_bss; to < box_bss_end; to++) *to = 0;
    box_exit(main());
}

#if defined(__riscv)
__attribute__((section(".vectors"), naked, used)) void box_first(void) {
    __asm__ volatile("la sp, box_stack_top\n\tj box_start");
}
#else
__attribute__((section(".vectors"), used)) static const struct {
    uint32_t *stack;
    void (*handlers[15])(void);
} vectors = {
    box_stack_top,
    {box_start, fault, fault, fault, fault, fault, 0, 0, 0, 0, fault, fault, 0, fault, fault}};
#endif
