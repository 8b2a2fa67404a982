/* Takes line 9 from the guest in tick 2,000, passes every third rise on to it, and gives the line back in 4,000. */
#include "module.h"

enum { LINE_NINE = 9, TAKEN = 2000, GIVEN_BACK = 4000, EACH = 3, PRIORITY = 10 };

STACK(lender_stack, 512);

static volatile int rises;

static ENTRY unsigned on_nine(unsigned irq, struct pt_regs *regs) {
    (void)regs;
    rises++;
    if (rises % EACH == 0) {
        rtl_global_pend_irq((int)irq);
    }
    return 0;
}

/* Its first release is in the tick TAKEN, its second in GIVEN_BACK. */
static ENTRY void *lender(void *argument) {
    (void)argument;
    rtl_request_irq(LINE_NINE, on_nine);
    pthread_wait_np();
    rtl_free_irq(LINE_NINE);
    rtl_printf("%d rises", rises);
    return NULL;
}

int init_module(void) {
    pthread_t thread;
    pthread_create(&thread, WITH(lender_stack, PRIORITY), lender, NULL);
    return -pthread_make_periodic_np(thread, TAKEN, GIVEN_BACK - TAKEN);
}
