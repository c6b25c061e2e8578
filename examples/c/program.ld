/* One load that holds everything: code, constants, data, and the zeros of .bss.

   The stack has `stack_size` bytes directly behind it, in the room, so the program runs with `--room 16384` or more.
   With less, the first word that is kept on the stack is a store outside memory (trap 7). A stack that outgrows its
   size runs into .bss, and nothing tells. Another size is asked for with -Wl,--defsym=stack_size=N, where N is a
   multiple of 16. */
ENTRY(_start)
PHDRS { program PT_LOAD FLAGS(7); }
stack_size = DEFINED(stack_size) ? stack_size : 16384;

SECTIONS
{
    . = 0x10000;
    .text : {
        KEEP(*(.text.start))
        *(.text .text.*)
        *(.rodata .rodata.* .srodata .srodata.*)
    } :program
    .data : {
        *(.data .data.*)
        __global_pointer$ = . + 0x800;
        *(.sdata .sdata.*)
    } :program
    .bss : {
        *(.sbss .sbss.* .bss .bss.* COMMON)
        . = ALIGN(16);
    } :program
    stack_top = . + stack_size;
    /DISCARD/ : { *(.comment) *(.note .note.*) *(.eh_frame) *(.riscv.attributes) }
}
