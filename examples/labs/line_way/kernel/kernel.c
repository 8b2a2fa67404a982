/* A kernel that sends a letter for each entry of the first soft line, and halts between. */
#include "guest.h"
#include "serial.h"

enum { SOFT_LINE = 16 };

static void on_soft_line(struct frame *frame) {
    (void)frame;
    outb(THR, 's');
}

int main(void) {
    set_handler(VECTOR_OF_LINE(SOFT_LINE), on_soft_line, INTERRUPT_GATE);
    if (load_handlers() != 0) {
        return -1;
    }
    set_mask(~(1u << SOFT_LINE));
    sti();
    for (;;) {
        hlt();
    }
}
