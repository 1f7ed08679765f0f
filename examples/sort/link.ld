/* Where everything lies in RAM. The machine starts at 80000000. */
ENTRY(start)

SECTIONS
{
    /* The kernel, at the addresses that are its places. */
    .text 0x80000000 : { *start.o(.text.start) *start.o(.text) *kernel.o(.text .text.*) }
    .rodata : { *kernel.o(.rodata .rodata.* .srodata .srodata.*) }
    .data : { *kernel.o(.data .data.* .sdata .sdata.*) }

    /* The program of the processes: one page of RAM, which they find at 00400000. It has no data of its own. */
    user_text = ALIGN(4096);
    .user 0x00400000 : AT(user_text) {
        *user.o(.text.start)
        *user.o(.text .text.* .rodata .rodata.* .srodata .srodata.*)
    }
    ASSERT(SIZEOF(.user) <= 4096, "the program of the processes is longer than a page")

    /* What is 0 at first. */
    .bss user_text + 4096 (NOLOAD) : AT(user_text + 4096) { *(.bss .bss.* .sbss .sbss.* COMMON) }

    /* The pages of the processes, four each: data, stack, root and table. So process 0 has its sorted words at
       80010000 and the root 80012000, process 1 has its words at 80014000 and the root 80016000. */
    .pages 0x80010000 (NOLOAD) : AT(0x80010000) { *(.pages) }
    ASSERT(ADDR(.bss) + SIZEOF(.bss) <= 0x80010000, "the kernel is longer than 64 KiB")

    /DISCARD/ : { *(.comment .eh_frame .riscv.attributes .note.* .llvm*) }
}
