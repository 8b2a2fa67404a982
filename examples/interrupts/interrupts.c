/* A guest with a descriptor table of its own: system calls by INT 80h, and a divide error whose handler repairs the divisor
   and returns. It leaves the sum of the calls, the quotient and the number of divide errors in registers. */

#include "guest.h"

enum { DIVIDE_ERROR = 0, SYSTEM_CALL = 0x80, ENTRIES = 0x81 };

static struct descriptor table[ENTRIES];

volatile unsigned divide_errors;

void divide_error(void);
void system_call(void);

/* The system call adds its two arguments. */
static unsigned add(unsigned a, unsigned b) {
    unsigned sum;
    __asm__ volatile("int $0x80" : "=a"(sum) : "0"(a), "b"(b) : "memory");
    return sum;
}

/* The handler of the divide error makes the divisor 7. */
static unsigned divide(unsigned dividend, unsigned divisor) {
    unsigned quotient, rest;
    __asm__ volatile("divl %%ecx" : "=a"(quotient), "=d"(rest), "+c"(divisor) : "0"(dividend), "1"(0) : "memory");
    return quotient;
}

unsigned sum;
unsigned quotient;

void guest(void) {
    set_descriptor(&table[DIVIDE_ERROR], divide_error, INTERRUPT_GATE);
    set_descriptor(&table[SYSTEM_CALL], system_call, TRAP_GATE);
    if (load_idt(table, ENTRIES) != 0) {
        return;
    }
    for (unsigned i = 1; i <= 4; i++) {
        sum = add(sum, i);
    }
    quotient = divide(100, 0);
}
