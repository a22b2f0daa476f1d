ENTRY(_start)
SECTIONS {
    . = 0x1000;
    .text   : ALIGN(8) { *(.text.start) *(.text .text.*) . = ALIGN(8); }
    . = ALIGN(0x1000);
    .rodata : ALIGN(8) { *(.rodata .rodata.* .srodata .srodata.*) . = ALIGN(8); }
    .data   : ALIGN(8) { *(.data .data.* .sdata .sdata.*) . = ALIGN(8); }
    .bss    : ALIGN(8) { *(.bss .bss.* .sbss .sbss.* COMMON) . = ALIGN(8); }
    .stack (NOLOAD) : ALIGN(16) { . += 0x1000; __stack_top = .; }
    /DISCARD/ : { *(.comment) *(.note*) *(.eh_frame*) *(.riscv.attributes) }
}
