/* The memory of a test program on a Cortex-M: the emulator loads it, so data are where they are
 * used. 4 MB each, which the programs with their reference code take. */
MEMORY {
    flash (rwx) : ORIGIN = box_flash, LENGTH = 4M
    ram (rwx) : ORIGIN = box_ram, LENGTH = 4M
}
SECTIONS {
    .text : {
        KEEP(*(.vectors)) *(.text*) KEEP(*(.init)) KEEP(*(.fini)) *(.rodata*) *(.eh_frame*)
        . = ALIGN(4);
        __preinit_array_start = .; KEEP(*(.preinit_array)) __preinit_array_end = .;
        __init_array_start = .; KEEP(*(.init_array*)) __init_array_end = .;
        __fini_array_start = .; KEEP(*(.fini_array*)) __fini_array_end = .;
    } > flash
    .ARM.exidx : { __exidx_start = .; *(.ARM.exidx*) __exidx_end = .; } > flash
    .data : { *(.data*) } > ram
    .bss : { __bss_start__ = .; *(.bss* COMMON) . = ALIGN(8); __bss_end__ = .; } > ram
    end = .; _end = .; __end__ = .;
    boxes_stack_top = ORIGIN(ram) + LENGTH(ram);
    __stack = boxes_stack_top;
}
