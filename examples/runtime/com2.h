/* A module's serial port, COM2, a 16550 at 2F8h as the guest's at 3F8h, whose bits serial.h names. Its interrupt is line 3, which a module has to
   hold to hear of it; its ports need nothing. A byte takes 32 ticks to leave. */
#ifndef COM2_H
#define COM2_H

#include "ports.h"
#include "serial.h"

enum { LINE_COM2 = 3 };

enum {
    COM2 = 0x2f8,
    COM2_RBR = COM2 + RBR - COM1,
    COM2_THR = COM2 + THR - COM1,
    COM2_IER = COM2 + IER - COM1,
    COM2_IIR = COM2 + IIR - COM1,
    COM2_FCR = COM2 + FCR - COM1,
    COM2_MCR = COM2 + MCR - COM1,
    COM2_LSR = COM2 + LSR - COM1
};

/* Lets these of the port's interrupts (IER_RECEIVED and so on) reach line 3. */
static inline void com2_interrupts(unsigned char wanted) {
    outb(COM2_MCR, MCR_OUT2);
    outb(COM2_IER, wanted);
}

/* Whether a byte has come. */
static inline int com2_received(void) {
    return inb(COM2_LSR) & LSR_RECEIVED;
}

/* The first byte that has come, 0 where none has. */
static inline unsigned char com2_get(void) {
    return inb(COM2_RBR);
}

/* Whether a byte can be written without loss. */
static inline int com2_can_send(void) {
    return inb(COM2_LSR) & LSR_BUFFER_EMPTY;
}

static inline void com2_send(unsigned char byte) {
    outb(COM2_THR, byte);
}

#endif
