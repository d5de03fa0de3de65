/* The emulator's "virt" board: memory from 0x80000000 on. The programs have no data that begins as anything but 0. */
MEMORY { DATA (rwx) : ORIGIN = 0x80000000, LENGTH = 8M }
ENTRY(reset)
SECTIONS {
    .text : { KEEP(*(.vectors)) *(.text* .rodata* .srodata*) } >DATA
    .data : { *(.data* .sdata*) } >DATA
    .bss (NOLOAD) : { . = ALIGN(16); bss_begin = .; *(.bss* .sbss* COMMON) . = ALIGN(16); bss_end = .; } >DATA
    .stack (NOLOAD) : { stack_low = .; . += 8192; stack_top = .; } >DATA
    /DISCARD/ : { *(.comment .eh_frame*) }
}
ASSERT(SIZEOF(.data) == 0, "data that begins as something but 0 would have to be copied")
