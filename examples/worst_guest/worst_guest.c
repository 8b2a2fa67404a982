/* A thread that says in each turn how late it was released: the tick in which it is on, less its due. A thread below it holds back interrupts for a
   while in each turn, which is all that can make the first one late. */
#include "module.h"

enum { FIRST = 500, PROBE_PERIOD = 137, PROBE_PRIORITY = 90 };
enum { HOLDER_PERIOD = 200, HOLDER_PRIORITY = 10, HELD = 25 };

STACK(probe_stack, 256);
STACK(holder_stack, 256);

static ENTRY void *probe(void *argument) {
    hrtime_t due = (hrtime_t)argument;
    for (;;) {
        unsigned char late = (unsigned char)(gethrtime() - due);
        rtl_print(&late, 1);
        due += PROBE_PERIOD;
        pthread_wait_np();
    }
    return NULL;
}

static ENTRY void *holder(void *argument) {
    (void)argument;
    for (;;) {
        unsigned ticks = HELD;
        rtl_stop_interrupts();
        __asm__ volatile("0: loop 0b" : "+c"(ticks));
        rtl_allow_interrupts();
        pthread_wait_np();
    }
    return NULL;
}

int init_module(void) {
    pthread_t thread;
    pthread_create(&thread, WITH(probe_stack, PROBE_PRIORITY), probe, (void *)FIRST);
    pthread_make_periodic_np(thread, FIRST, PROBE_PERIOD);
    pthread_create(&thread, WITH(holder_stack, HOLDER_PRIORITY), holder, NULL);
    return -pthread_make_periodic_np(thread, FIRST, HOLDER_PERIOD);
}
