/* Line 7 and what comes of it. Today its handler counts, and that is all. */
#include "module.h"

enum { LINE_SEVEN = 7, PRIORITY = 20, WORK = 40 };

STACK(worker_stack, 512);

static pthread_t worker_thread;
static volatile unsigned rises;
static int soft_line;

static inline void work(unsigned ticks) {
    __asm__ volatile("0: loop 0b" : "+c"(ticks));
}

static ENTRY unsigned on_seven(unsigned irq, struct pt_regs *regs) {
    (void)irq;
    (void)regs;
    rises++;
    /* Wake the worker. */
    return 0;
}

static ENTRY void *worker(void *argument) {
    (void)argument;
    for (;;) {
        /* Wait for a rise on which no work has been done; none may be lost between the look and the wait. */
        pthread_suspend_np(pthread_self());
        work(WORK);
        /* Mark the soft line for the guest. */
    }
    return NULL;
}

int init_module(void) {
    soft_line = rtl_get_soft_irq(NULL, NULL);
    line_entry handler = on_seven;
    (void)handler;
    /* Take line 7 for the handler. */
    return -pthread_create(&worker_thread, WITH(worker_stack, PRIORITY), worker, NULL);
}
