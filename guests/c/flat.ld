/* A flat image at the start of 1 MiB of memory: code, then constants, then data. What is 0 at the start (.bss) follows
   and is no part of the image. The stack begins at the top and grows down. */

OUTPUT_ARCH(riscv)
ENTRY(_start)

MEMORY
{
    RAM (rwx) : ORIGIN = 0x80000000, LENGTH = 1M
}

/* Two segments, so that none is both written and run. */
PHDRS
{
    code PT_LOAD FLAGS(5);
    data PT_LOAD FLAGS(6);
}

stack_top = ORIGIN(RAM) + LENGTH(RAM);

SECTIONS
{
    .text : { KEEP(*(.text.start)) *(.text .text.*) } >RAM :code
    .rodata : { *(.rodata .rodata.* .srodata .srodata.*) } >RAM :code
    .data : { *(.data .data.* .sdata .sdata.*) } >RAM :data
    .bss : { *(.sbss .sbss.* .bss .bss.* COMMON) } >RAM :data
    bss_end = .;

    /DISCARD/ : { *(.comment) *(.note .note.*) *(.eh_frame .eh_frame_hdr) *(.riscv.attributes) }
}

ASSERT(_start == ORIGIN(RAM), "_start must be the first instruction: put it into .text.start")
ASSERT(bss_end + 4096 <= stack_top, "the guest leaves fewer than 4096 bytes of the 1 MiB for its stack")
