/* A program in M: all of it in memory from 0x80000000 on, where the hart starts, and the stack at memory's end. */
ENTRY(_start)
MEMORY { memory (rwx) : ORIGIN = 0x80000000, LENGTH = 1M }
PHDRS { text PT_LOAD FLAGS(5); data PT_LOAD FLAGS(6); tls PT_TLS; }

SECTIONS
{
    .text : { KEEP(*(.text.start)) *(.text .text.*) } >memory :text
    .rodata : { *(.rodata .rodata.* .srodata .srodata.*) } >memory :text
    . = ALIGN(4096);
    .data : { *(.data .data.*) . = ALIGN(8); __global_pointer$ = . + 0x800; *(.sdata .sdata.*) } >memory :data
    .tdata : ALIGN(8) { *(.tdata .tdata.*) } >memory :data :tls
    __tls_base = ADDR(.tdata);
    .tbss (NOLOAD) : { *(.tbss .tbss.*) } >memory :tls
    /* The linker gives .tbss no room of its own, and one thread's variables lie right there. */
    .bss (NOLOAD) : ALIGN(8)
    {
        __bss_start = .;
        . = . + SIZEOF(.tbss);
        *(.sbss .sbss.* .bss .bss.* COMMON)
        . = ALIGN(8);
        __bss_end = .;
    } >memory :data
    _end = .;
    _stack_top = ORIGIN(memory) + LENGTH(memory);
    __heap_start = _end;
    __heap_end = _stack_top - 64K;
    /DISCARD/ : { *(.eh_frame .eh_frame.*) }
}
