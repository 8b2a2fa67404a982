/* A kernel that sends a digit each 500 ticks and halts between. It has the processor only while no thread is ready. */
#include "guest.h"
#include "serial.h"

enum { PERIOD = 500 };

static unsigned entries_seen;

static void on_timer(struct frame *frame) {
    (void)frame;
    entries_seen++;
    outb(THR, (unsigned char)('0' + entries_seen % 10));
}

int main(void) {
    set_handler(VECTOR_OF_LINE(LINE_TIMER), on_timer, INTERRUPT_GATE);
    if (load_handlers() != 0) {
        return -1;
    }
    set_mask(~(1u << LINE_TIMER));
    set_timer(PERIOD);
    sti();
    for (;;) {
        hlt();
    }
}
