/* Fills memory by string instructions with its flag clear, has a timer whose handler takes most of its period, takes every line that comes, and writes
   its serial port whether or not that has room. */
#include "guest.h"
#include "serial.h"

enum { LINES = 16, BLOCK = 256, PERIOD = 40 };

static unsigned char block[BLOCK];
static volatile unsigned entries_seen;

static void on_line(struct frame *frame) {
    (void)frame;
    entries_seen++;
    outb(THR, 'x');
    inb(RBR);
}

static void fill(void) {
    unsigned count = BLOCK;
    unsigned char *place = block;
    __asm__ volatile("rep stosb" : "+c"(count), "+D"(place) : "a"(0xf4) : "memory");
}

int main(void) {
    for (unsigned line = 0; line < LINES; line++) {
        set_handler(VECTOR_OF_LINE(line), on_line, INTERRUPT_GATE);
    }
    load_handlers();
    set_mask(0);
    set_timer(PERIOD);
    outb(MCR, MCR_OUT2);
    outb(IER, IER_RECEIVED | IER_TRANSMITTER | IER_LINE_STATUS);
    for (;;) {
        fill();
        sti();
        outb(THR, 'y');
        cli();
    }
}
