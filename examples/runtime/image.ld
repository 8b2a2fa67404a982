/* An ELF image at 1000h, for `run`. Its end has to lie below guest_memory, and the stack comes down from there. */
OUTPUT_FORMAT("elf32-i386")
ENTRY(_start)
PHDRS { image PT_LOAD FLAGS(7); }
SECTIONS
{
    . = 0x1000;
    .text : { *(.start) *(.text .text.*) } :image
    .rodata : { *(.rodata .rodata.*) } :image
    .data : { *(.data .data.*) } :image
    .bss : { *(.bss .bss.* COMMON) } :image
    /DISCARD/ : { *(.comment) *(.note*) *(.eh_frame*) }
}
