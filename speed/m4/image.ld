/* mps2-an386: 4 MB from 0 on, where the vectors are, and 4 MB from 0x20000000 on. The emulator loads both, so nothing is copied at the start. */
ENTRY(VECTORS)
MEMORY {
    code (rx) : ORIGIN = 0x00000000, LENGTH = 4M
    data (rw) : ORIGIN = 0x20000000, LENGTH = 4M
}
stack_top = ORIGIN(data) + LENGTH(data);
SECTIONS {
    /* between functions nop, which speed/stack.py knows */
    .text : { KEEP(*(.vectors)) *(.text .text.*) } > code =0x00bf00bf
    .rodata : { *(.rodata .rodata.*) } > code
    .ARM.exidx : { *(.ARM.exidx*) } > code
    .data : { *(.data .data.*) } > data
    .bss : { *(.bss .bss.* COMMON) } > data
}
