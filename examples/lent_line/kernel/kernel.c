/* A kernel that sends a letter for each entry of line 9, and halts between. */
#include "guest.h"
#include "serial.h"

enum { LINE_NINE = 9 };

static unsigned entries_seen;

static void on_nine(struct frame *frame) {
    (void)frame;
    outb(THR, (unsigned char)('a' + entries_seen++ % 26));
}

int main(void) {
    set_handler(VECTOR_OF_LINE(LINE_NINE), on_nine, INTERRUPT_GATE);
    if (load_handlers() != 0) {
        return -1;
    }
    set_mask(~(1u << LINE_NINE));
    sti();
    for (;;) {
        hlt();
    }
}
