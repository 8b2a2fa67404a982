# The guest starts here, with ESP at the end of its side and its flag clear. It calls main and halts; what main answers stays
# in EAX.
#include "gates.h"
    .section .start, "ax"
    .code32
    .globl _start
_start:
    call main
halted:
    int $GATE_HLT
    jmp halted

    .section .note.GNU-stack, "", @progbits
