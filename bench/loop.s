# A ROM of 64 KB with the loop of examples/loop.bin: a decrement and a jump, COUNT times; then it ends the emulator. The processor
# starts 16 bytes before its end.
    .code16
    .globl _start
_start:
    movl $COUNT, %ecx
again:
    decl %ecx
    jnz again
    movw $0xf4, %dx             # QEMU's isa-debug-exit
    outb %al, %dx
    movw $0x8900, %dx           # Bochs' shutdown port
    movw $(text - _start), %si
next:
    lodsb %cs:(%si), %al
    outb %al, %dx
    testb %al, %al
    jnz next
    hlt
text:
    .asciz "Shutdown"
    .org 0xfff0
    jmp _start
    .org 0x10000
