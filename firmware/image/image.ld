/* In flash code, what is only read, and what variables begin with. */
ENTRY(run)

stack_bottom = ORIGIN(STACK);
stack_top = ORIGIN(STACK) + LENGTH(STACK);

SECTIONS
{
    .text : { KEEP(*(.vectors .start)) *(.text .text.* .rodata .rodata.* .srodata .srodata.*) . = ALIGN(4); } > FLASH
    .data : { data_begin = .; *(.data .data.* .sdata .sdata.*) . = ALIGN(4); data_end = .; } > RAM AT > FLASH
    data_initial = LOADADDR(.data);
    .bss (NOLOAD) : { zeros_begin = .; *(.bss .bss.* .sbss .sbss.*) . = ALIGN(4); zeros_end = .; } > RAM
    /DISCARD/ : { *(.ARM.exidx .ARM.exidx.*) }
}
