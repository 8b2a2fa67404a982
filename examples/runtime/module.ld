/* A module, an ELF image on the real-time side. Its one parameter is its first address, MODULE_PLACE: 11000h, which is right beside a guest's
   memory of 65,536 bytes, where none is given; PLACE of make gives another. All of it lies from 16 bytes above guest_memory to 4,096 below the end of real_time_memory. */
OUTPUT_FORMAT("elf32-i386")
ENTRY(init_module)
PHDRS { module PT_LOAD FLAGS(7); }
SECTIONS
{
    . = DEFINED(MODULE_PLACE) ? MODULE_PLACE : 0x11000;
    .text : { *(.text .text.*) } :module
    .rodata : { *(.rodata .rodata.*) } :module
    .data : { *(.data .data.*) } :module
    .bss : { *(.bss .bss.* COMMON) } :module
    /DISCARD/ : { *(.comment) *(.note*) *(.eh_frame*) }
}
