/* Arm's MPS2 boards: 4 MB of code memory at 0, 4 MB of data memory. The programs have no data that begins as anything
 * but 0. */
MEMORY {
    CODE (rx) : ORIGIN = 0x00000000, LENGTH = 4M
    DATA (rw) : ORIGIN = 0x20000000, LENGTH = 4M
}
ENTRY(reset)
SECTIONS {
    .text : { KEEP(*(.vectors)) *(.text* .rodata*) } >CODE
    .data : { *(.data*) } >DATA
    .bss (NOLOAD) : { . = ALIGN(8); bss_begin = .; *(.bss* COMMON) . = ALIGN(8); bss_end = .; } >DATA
    .stack (NOLOAD) : { stack_low = .; . += 8192; stack_top = .; } >DATA
    /DISCARD/ : { *(.ARM.exidx* .ARM.extab* .comment) }
}
ASSERT(SIZEOF(.data) == 0, "data that begins as something but 0 would have to be copied")
