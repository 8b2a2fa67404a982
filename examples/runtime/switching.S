# switch_stack(esp, waits): pushes what an entry would push, so that the caller's stack is one of those that take turns.
#include "switching.h"
    .text
    .code32
    .globl switch_stack
switch_stack:
    movl 4(%esp), %eax
    movl 8(%esp), %edx
    int $GATE_PUSHF
    pushl $8
    pushl $returns
    pushal
    movl %esp, (%edx)
    movl %eax, %esp
    popal
    int $GATE_IRET
returns:
    ret

    .section .note.GNU-stack, "", @progbits
