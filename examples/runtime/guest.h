/* What a guest in C has: the soft gates, ports, descriptors and handlers. Each gate costs one tick. */
#ifndef GUEST_H
#define GUEST_H

#include "gates.h"
#include "ports.h"

/* The soft flag. */

static inline void cli(void) {
    __asm__ volatile("int %0" : : "i"(GATE_CLI) : "memory");
}

/* Where the flag was clear, the next instruction is performed before any line is entered. */
static inline void sti(void) {
    __asm__ volatile("int %0" : : "i"(GATE_STI) : "memory");
}

/* EFLAGS, with bit 9 equal to the flag. */
static inline unsigned pushf(void) {
    unsigned eflags;
    __asm__ volatile("int %1\n\tpopl %0" : "=r"(eflags) : "i"(GATE_PUSHF) : "memory");
    return eflags;
}

/* Takes EFLAGS, and the flag from its bit 9, with no shadow. */
static inline void popf(unsigned eflags) {
    __asm__ volatile("pushl %0\n\tint %1" : : "r"(eflags), "i"(GATE_POPF) : "memory", "cc");
}

/* Halts until a line is entered. With the flag clear that is for good. */
static inline void hlt(void) {
    __asm__ volatile("int %0" : : "i"(GATE_HLT) : "memory");
}

/* Sets the flag and halts. The halt stands in the shadow, so no line is entered between the two, and a line that was
   marked before wakes the guest. */
static inline void sti_and_hlt(void) {
    __asm__ volatile("int %0\n\tint %1" : : "i"(GATE_STI), "i"(GATE_HLT) : "memory");
}

/* The calls of the executive. */

/* Bit n set masks line n. All lines are masked at the start. */
static inline void set_mask(unsigned mask) {
    unsigned result;
    __asm__ volatile("int %1" : "=a"(result) : "i"(GATE_CALL), "0"(CALL_SET_MASK), "b"(mask) : "memory");
}

/* Sets the executive's timer for the guest: with the gate in tick t, line 0 is asked in the ticks t + period, t + 2 * period and so on,
   until the timer is set again. 0 turns it off. The answer is 0, or -22 where the period is above 1,000,000,000, and then nothing
   changes. */
static inline int set_timer(unsigned period) {
    int result;
    __asm__ volatile("int %1" : "=a"(result) : "i"(GATE_CALL), "0"(CALL_SET_TIMER), "b"(period) : "memory");
    return result;
}

/* The number of the tick in which the gate is performed. */
static inline unsigned time(void) {
    unsigned tick;
    __asm__ volatile("int %1" : "=a"(tick) : "i"(GATE_CALL), "0"(CALL_TIME) : "memory");
    return tick;
}

/* Puts `count` bytes, at most 256, into a FIFO that a module has made: all of them or none. The answer is how many; -22 for more than 256 bytes,
   else -19 where there is no such FIFO, else -28 where they don't all fit. A byte outside the guest's side is a breach. It calls the
   module's handler of that FIFO, if there is one. */
static inline int fifo_put(unsigned fifo, const void *place, unsigned count) {
    int result;
    __asm__ volatile("int %1" : "=a"(result) : "i"(GATE_CALL), "0"(CALL_FIFO_PUT), "b"(fifo), "c"(place), "d"(count) : "memory");
    return result;
}

/* Gets the first bytes of a FIFO, at most `count`, which is at most 256: as many as there are. The answer is how many, or as of fifo_put. It
   calls the handler where it got some. */
static inline int fifo_get(unsigned fifo, void *place, unsigned count) {
    int result;
    __asm__ volatile("int %1" : "=a"(result) : "i"(GATE_CALL), "0"(CALL_FIFO_GET), "b"(fifo), "c"(place), "d"(count) : "memory");
    return result;
}

/* An entry of the table of descriptors, by the 80386 manual. */
struct descriptor {
    unsigned short offset_low;
    unsigned short segment;
    unsigned char zero;
    unsigned char attribute;
    unsigned short offset_high;
};

enum {
    INTERRUPT_GATE = 0x8e,      /* present, type 0Eh: the entry clears the flag */
    TRAP_GATE = 0x8f            /* present, type 0Fh: the entry leaves the flag */
};

static inline void set_descriptor(struct descriptor *place, void (*entry)(void), unsigned char attribute) {
    unsigned offset = (unsigned)entry;
    place->offset_low = offset & 0xffff;
    place->segment = 8;
    place->zero = 0;
    place->attribute = attribute;
    place->offset_high = offset >> 16;
}

/* Takes a table of at most 256 descriptors: 0, or -22 where it is too long or doesn't lie on the guest's side. */
static inline int load_idt(const struct descriptor *place, unsigned entries) {
    int result;
    __asm__ volatile("int %1" : "=a"(result) : "i"(GATE_CALL), "0"(CALL_LOAD_IDT), "b"(place), "c"(entries) : "memory");
    return result;
}

/* Handlers, of entries.S and handlers.c. Lines 0 to 31 have the vectors 32 to 63. */

enum { LINE_TIMER = 0, LINE_SERIAL = 4, VECTORS = 256 };

#define VECTOR_OF_LINE(line) (32 + (line))

/* What stands on the stack while a handler runs: a handler may read and change it. */
struct frame {
    unsigned edi, esi, ebp, esp, ebx, edx, ecx, eax;    /* as PUSHA leaves them; ESP isn't taken back */
    unsigned char vector, signs[3];                     /* the vector; the rest of its word says nothing */
    unsigned eip, segment, eflags;                      /* as the entry pushed them */
};

typedef void (*handler)(struct frame *);

/* Of handlers.c: what set_handler does for a vector that is there. */
void fill_vector(unsigned vector, handler handle, unsigned char attribute);

/* Lets `handle` serve a vector below 256, as an interrupt gate or a trap gate: 0, or -1 where there is no such vector. No vector
   has an error code on the stack. Those from F0h on are gates or breaches, which ask no handler. */
static inline int set_handler(unsigned vector, handler handle, unsigned char attribute) {
    if (vector >= VECTORS) {
        return -1;
    }
    fill_vector(vector, handle, attribute);
    return 0;
}

/* Takes the table of all vectors that have a handler; a vector without one is a shutdown. The same answer as load_idt. */
int load_handlers(void);

#endif
