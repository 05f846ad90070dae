/* Each part on a page of its own, spread over 29 pages as host/bench/src/controller.rs has them. The code finds everything by its
 * distance, so that the words are right at any address of the first page: 0x10000 in user mode, 0x80000000 in M. No gp is given,
 * and no part of the program has an address in its data. */
ENTRY(start)
SECTIONS
{
    . = 0x10000;
    .program : { *(.text.start) *start.user.o(.text .text.*) *controller.user.o(.text .text.*) }
    . = 0x15000;
    .library : { *library.user.o(.text .text.*) }
    . = 0x1B000;
    .constants : { *(.rodata .rodata.* .srodata .srodata.*) . = ALIGN(4); }
    . = 0x20000;
    .kept (NOLOAD) : { *(.sbss .sbss.* .bss .bss.*) }
    .data : { *(.data .data.* .sdata .sdata.*) }
    ASSERT(SIZEOF(.program) <= 4096 && SIZEOF(.library) <= 4096 && SIZEOF(.constants) <= 4096 && SIZEOF(.kept) <= 4096, "a page is full")
    ASSERT(SIZEOF(.data) == 0, "data with a first value would have to be words too")
    /DISCARD/ : { *(.eh_frame .eh_frame.* .comment .riscv.attributes) }
}
