# An entry for each vector, eight bytes apart. It pushes its vector and all registers, calls C with the place of this frame, takes
# the registers back and returns by the soft gate. The vector is pushed as a signed byte, which is short: its low byte is read.
#include "gates.h"
    .text
    .code32
    .globl entries
    .balign 8
entries:
    .set vector, 0
    .rept 256
    pushl $((vector ^ 0x80) - 0x80)
    jmp enter_handler
    .balign 8
    .set vector, vector + 1
    .endr

enter_handler:
    pushal
    cld
    pushl %esp
    call serve
    addl $4, %esp
    popal
    addl $4, %esp               # the vector
    int $GATE_IRET

    .section .note.GNU-stack, "", @progbits
