/* The memory of a controller. examples/box/run says where the emulated board has it (--defsym); a
 * real box takes its own numbers. 64 KB of flash and 12 KB of RAM: reading a telegram takes some
 * 6 KB of stack, and the library no other RAM. */
MEMORY {
    flash (rx) : ORIGIN = box_flash, LENGTH = DEFINED(box_flash_size) ? box_flash_size : 64K
    ram (rw) : ORIGIN = box_ram, LENGTH = DEFINED(box_ram_size) ? box_ram_size : 12K
}
ENTRY(box_start)
SECTIONS {
    .text : { KEEP(*(.vectors)) *(.text*) *(.rodata* .srodata*) . = ALIGN(8); } > flash
    .ARM.exidx : { *(.ARM.exidx*) } > flash
    .data : {
        box_data = .;
        *(.data* .sdata*)
        . = ALIGN(4);
        box_data_end = .;
    } > ram AT > flash
    box_data_in_flash = LOADADDR(.data);
    .bss (NOLOAD) : {
        box_bss = .;
        *(.bss* .sbss* COMMON)
        . = ALIGN(8);
        box_bss_end = .;
    } > ram
    box_stack_top = ORIGIN(ram) + LENGTH(ram);
}
