/* QEMU's board mps2-an386 (Cortex-M4): code at 0, memory at 2000 0000h, the stack at its end. */
ENTRY(reset)
MEMORY
{
    FLASH (rx) : ORIGIN = 0x00000000, LENGTH = 1024K
    RAM (rwx) : ORIGIN = 0x20000000, LENGTH = 1024K
}
SECTIONS
{
    .text : { KEEP(*(.vectors)) *(.text .text.*) *(.rodata .rodata.*) . = ALIGN(8); } >FLASH
    .ARM.exidx : { *(.ARM.exidx*) } >FLASH
    data_load = LOADADDR(.data);
    .data : { data_start = .; *(.data .data.*) . = ALIGN(8); data_end = .; } >RAM AT>FLASH
    .bss (NOLOAD) : { bss_start = .; *(.bss .bss.* COMMON) . = ALIGN(8); bss_end = .; end = .; } >RAM
    stack_top = ORIGIN(RAM) + LENGTH(RAM);
}
