/* Sends back what COM1 receives, by the received-data interrupt with the FIFOs on and a trigger of 4 bytes. */
#include "guest.h"
#include "serial.h"

enum { BUFFER_SIZE = 16 };

/* Sends back every byte that waits. A transmit buffer that is empty takes 16 bytes. */
static void echo(void) {
    unsigned room = 0;
    while (inb(LSR) & LSR_RECEIVED) {
        while (room == 0) {
            room = inb(LSR) & LSR_BUFFER_EMPTY ? BUFFER_SIZE : 0;
        }
        outb(THR, inb(RBR));
        room--;
    }
}

/* Goes on until the port asks for nothing more, so that its line is low at the end and can rise again. */
static void on_serial(struct frame *frame) {
    (void)frame;
    while ((inb(IIR) & IIR_MASK) != IIR_NONE) {
        echo();
    }
}

int main(void) {
    set_handler(VECTOR_OF_LINE(LINE_SERIAL), on_serial, INTERRUPT_GATE);
    if (load_handlers() != 0) {
        return -1;
    }
    outb(FCR, FCR_ON | FCR_TRIGGER_4);
    outb(MCR, MCR_OUT2);
    outb(IER, IER_RECEIVED);
    set_mask(~(1u << LINE_SERIAL));
    for (;;) {
        sti_and_hlt();
    }
}
