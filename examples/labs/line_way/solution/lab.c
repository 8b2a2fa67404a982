/* Line 7 and what comes of it: its handler wakes a thread, which works and marks a soft line for the guest. */
#include "module.h"

enum { LINE_SEVEN = 7, PRIORITY = 20, WORK = 40 };

STACK(worker_stack, 512);

static pthread_t worker_thread;
static volatile unsigned rises;
static int soft_line;

static inline void work(unsigned ticks) {
    __asm__ volatile("0: loop 0b" : "+c"(ticks));
}

static ENTRY unsigned on_seven(unsigned irq, struct pt_regs *regs) {
    (void)irq;
    (void)regs;
    rises++;
    pthread_wakeup_np(worker_thread);
    return 0;
}

/* While its interrupt flag is clear no handler starts, so none comes between the look and the wait. */
static ENTRY void *worker(void *argument) {
    unsigned seen = (unsigned)argument;
    for (;;) {
        rtl_stop_interrupts();
        if (seen == rises) {
            pthread_suspend_np(pthread_self());
        }
        rtl_allow_interrupts();
        seen++;
        work(WORK);
        rtl_global_pend_irq(soft_line);
    }
    return NULL;
}

int init_module(void) {
    soft_line = rtl_get_soft_irq(NULL, NULL);
    pthread_create(&worker_thread, WITH(worker_stack, PRIORITY), worker, NULL);
    return rtl_request_irq(LINE_SEVEN, on_seven);
}
