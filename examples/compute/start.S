# The guest starts here, at address 0, with ESP at the end of its side. It leaves the results in registers and goes round.
    .section .start, "ax"
    .code32
    .globl _start
_start:
    pushl $results
    call compute
    movl results, %eax
    movl results+4, %ecx
    movl results+8, %edx
    movl results+12, %ebx
    movl results+16, %esi
    movl results+20, %edi
round:
    jmp round

    .bss
    .align 4
results:
    .skip 24

    .section .note.GNU-stack, "", @progbits
