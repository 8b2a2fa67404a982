/* A kernel that sends a letter for each entry of line 6, and halts between. */
#include "guest.h"
#include "serial.h"

enum { LINE_SIX = 6 };

static void on_six(struct frame *frame) {
    (void)frame;
    outb(THR, '6');
}

int main(void) {
    set_handler(VECTOR_OF_LINE(LINE_SIX), on_six, INTERRUPT_GATE);
    if (load_handlers() != 0) {
        return -1;
    }
    set_mask(~(1u << LINE_SIX));
    sti();
    for (;;) {
        hlt();
    }
}
