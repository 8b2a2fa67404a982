/* Stacks that take turns: entries whose handler says on which stack the guest goes on, and what such a stack holds while it waits.
   The same file is read by C and by assembly. */
#ifndef SWITCHING_H
#define SWITCHING_H

#ifdef __ASSEMBLER__

#include "gates.h"

/* An entry of this name. It pushes all registers, calls the handler with ESP, and goes on with the ESP that the handler answers. */
    .macro SWITCHING_ENTRY name handler
    .globl \name
\name:
    pushal
    cld
    pushl %esp
    call \handler
    movl %eax, %esp
    popal
    int $GATE_IRET
    .endm

#else

/* What stands on a stack that waits, from its ESP on. */
struct waiting {
    unsigned edi, esi, ebp, esp, ebx, edx, ecx, eax;    /* as PUSHA leaves them; ESP isn't taken back */
    unsigned eip, segment, eflags;                      /* as an entry pushes them */
};

enum { EFLAGS_WITH_FLAG = 0x202 };

/* The ESP of a new stack, which ends at `end`, on which `entry` begins with the flag set. It may not return. */
static inline unsigned new_stack(unsigned char *end, void (*entry)(void)) {
    struct waiting *waiting = (struct waiting *)end - 1;
    *waiting = (struct waiting){.eip = (unsigned)entry, .segment = 8, .eflags = EFLAGS_WITH_FLAG};
    return (unsigned)waiting;
}

/* Of switching.S: leaves the caller's stack as one that waits, with its ESP at `waits`, and goes on with this ESP. It returns when
   something goes on with the caller's. */
void switch_stack(unsigned esp, unsigned *waits);

#endif

#endif
