/* Sends a text over COM1 from the transmitter's interrupt, up to 16 bytes each time the buffer has become empty. */
#include "guest.h"
#include "serial.h"

enum { BUFFER_SIZE = 16 };

static const char text[] = "Sent sixteen at a time, by interrupts.\n";
static unsigned sent;
static volatile int done;

static void fill(void) {
    for (int room = BUFFER_SIZE; room > 0 && text[sent]; room--) {
        outb(THR, (unsigned char)text[sent++]);
    }
}

/* Reading the cause ends the transmitter's interrupt. Where nothing is left to send, the port may ask no more. */
static void on_serial(struct frame *frame) {
    (void)frame;
    while ((inb(IIR) & IIR_MASK) == IIR_TRANSMITTER) {
        if (text[sent]) {
            fill();
        } else {
            outb(IER, 0);
            done = 1;
        }
    }
}

int main(void) {
    set_handler(VECTOR_OF_LINE(LINE_SERIAL), on_serial, INTERRUPT_GATE);
    if (load_handlers() != 0) {
        return -1;
    }
    set_mask(~(1u << LINE_SERIAL));
    outb(FCR, FCR_ON);
    outb(MCR, MCR_OUT2);
    outb(IER, IER_TRANSMITTER);
    while (!done) {
        sti_and_hlt();
        cli();
    }
    return (int)sent;
}
