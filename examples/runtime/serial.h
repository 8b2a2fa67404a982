/* The guest's serial port, a 16550 at 3F8h, by its data sheet. A byte takes 32 ticks to leave, whatever its divisor says. */
#ifndef SERIAL_H
#define SERIAL_H

enum {
    COM1 = 0x3f8,
    RBR = COM1 + 0,             /* read: the first byte received */
    THR = COM1 + 0,             /* write: a byte to send */
    IER = COM1 + 1,             /* which interrupts are wanted */
    IIR = COM1 + 2,             /* read: the cause of the interrupt */
    FCR = COM1 + 2,             /* write: the FIFOs */
    MCR = COM1 + 4,             /* the modem's lines */
    LSR = COM1 + 5              /* what stands in the buffers */
};

enum { IER_RECEIVED = 1, IER_TRANSMITTER = 2, IER_LINE_STATUS = 4 };

/* IIR's low bits: the first cause that stands, in this order. */
enum { IIR_MASK = 0x0f, IIR_OVERRUN = 6, IIR_RECEIVED = 4, IIR_TIMEOUT = 12, IIR_TRANSMITTER = 2, IIR_NONE = 1 };

enum { FCR_ON = 0x01, FCR_TRIGGER_4 = 0x40 };

enum { MCR_OUT2 = 8 };          /* lets the port's interrupt reach line 4 */

enum { LSR_RECEIVED = 0x01, LSR_BUFFER_EMPTY = 0x20, LSR_ALL_SENT = 0x40 };

#endif
