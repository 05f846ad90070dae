/* A program in user mode: virtual addresses from 0x10000 on, physical ones from 0x80000000 on. A segment has its own pages, with
 * the rights that it needs and no other: code, constants, data. Whoever starts the program gives it a stack. */
ENTRY(_start)
HEAP = 32K;
MEMORY
{
    virtual (rwx) : ORIGIN = 0x10000, LENGTH = 192K
    physical (rwx) : ORIGIN = 0x80000000, LENGTH = 1M
}
PHDRS { text PT_LOAD FLAGS(5); constants PT_LOAD FLAGS(4); data PT_LOAD FLAGS(6); tls PT_TLS; }

SECTIONS
{
    .text : { KEEP(*(.text.start)) *(.text .text.*) . = ALIGN(4096); } >virtual AT>physical :text
    .rodata : { *(.rodata .rodata.* .srodata .srodata.*) . = ALIGN(4096); } >virtual AT>physical :constants
    .data : { *(.data .data.*) . = ALIGN(8); __global_pointer$ = . + 0x800; *(.sdata .sdata.*) } >virtual AT>physical :data
    .tdata : ALIGN(8) { *(.tdata .tdata.*) } >virtual AT>physical :data :tls
    __tls_base = ADDR(.tdata);
    .tbss (NOLOAD) : { *(.tbss .tbss.*) } >virtual AT>physical :tls
    /* The linker gives .tbss no room of its own, and one thread's variables lie right there. */
    .bss (NOLOAD) : ALIGN(8)
    {
        __bss_start = .;
        . = . + SIZEOF(.tbss);
        *(.sbss .sbss.* .bss .bss.* COMMON)
        . = ALIGN(8);
        __bss_end = .;
        /* The heap begins here and can grow up to the end of the data's pages. */
        _end = .;
        . = . + HEAP;
        . = ALIGN(4096);
    } >virtual AT>physical :data
    _stack_top = 0;
    /DISCARD/ : { *(.eh_frame .eh_frame.*) }
}
