# The guest starts here, at address 0, with ESP at the end of its side.
#include "gates.h"
    .section .start, "ax"
    .code32
    .globl _start
_start:
    call guest
    movl sum, %eax
    movl quotient, %ecx
    movl divide_errors, %edx
round:
    jmp round

    .text
    .globl divide_error, system_call
# The divide error pushes the EIP of the division itself, which is performed again.
divide_error:
    incl divide_errors
    movl $7, %ecx
    int $GATE_IRET

system_call:
    addl %ebx, %eax
    int $GATE_IRET

    .section .note.GNU-stack, "", @progbits
