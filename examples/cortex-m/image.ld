/*
 * An image for qemu's mps2 boards: code at `code`, data at `data`, both given by ./build. The stack that the library's calls run on
 * is the lowest of the data, of exactly NURRISPANE_STACK octets, with a guard below it (startup.c): a call that takes more faults.
 */
MEMORY
{
    CODE (rx)  : ORIGIN = code, LENGTH = 512K
    DATA (rwx) : ORIGIN = data, LENGTH = 256K
}
ENTRY(reset)
SECTIONS
{
    .vectors : { KEEP(*(.vectors)) } > CODE
    .text : { *(.text .text.*) *(.rodata .rodata.*) . = ALIGN(8); } > CODE
    .ARM.exidx : { *(.ARM.exidx* .gnu.linkonce.armexidx.*) } > CODE
    .stack (NOLOAD) : { stack_low = .; *(.stack) } > DATA
    .data : { . = ALIGN(8); data_start = .; *(.data .data.*) . = ALIGN(4); data_end = .; } > DATA AT > CODE
    data_from = LOADADDR(.data);
    .bss (NOLOAD) : { bss_start = .; *(.bss .bss.*) *(COMMON) . = ALIGN(4); bss_end = .; } > DATA
    /* What asks for a global offset table needs one to be filled, and nobody does that here. */
    .got : { *(.got .got.*) } > DATA
    ASSERT(SIZEOF(.got) == 0, "the image has a global offset table")
    own_stack_top = ORIGIN(DATA) + LENGTH(DATA);
}
