/* The table of descriptors and the handlers behind it. */
#include "guest.h"

enum { ENTRY_SIZE = 8 };

/* Of entries.S. */
extern const unsigned char entries[VECTORS * ENTRY_SIZE];
void serve(struct frame *frame);

static struct descriptor table[VECTORS];
static handler handlers[VECTORS];

void serve(struct frame *frame) {
    handlers[frame->vector](frame);
}

void fill_vector(unsigned vector, handler handle, unsigned char attribute) {
    handlers[vector] = handle;
    set_descriptor(&table[vector], (void (*)(void))(entries + vector * ENTRY_SIZE), attribute);
}

int load_handlers(void) {
    return load_idt(table, VECTORS);
}
