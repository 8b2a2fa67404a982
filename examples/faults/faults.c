/* Six threads, each of which does in its third turn what no thread may, in a way of its own; one that goes on; and a handler that faults. */
#include "module.h"

enum { WAYS = 6, START = 500, BETWEEN = 50, PERIOD = 400, TURNS = 2, STEADY_PERIOD = 300 };
enum { PRIORITY = 20, STEADY_PRIORITY = 10, LINE_SIX = 6, BELOW_ALL = 0x100 };
enum { TIMER_PORT = 0x40 };

static unsigned char stacks[WAYS][256] __attribute__((aligned(16)));
STACK(steady_stack, 256);

static volatile int zero;

static void fail(unsigned way) {
    switch (way) {
    case 0:
        zero = 100 / zero;                                   /* divide */
        break;
    case 1:
        *(volatile int *)BELOW_ALL = 1;                     /* memory: the guest's */
        break;
    case 2:
        __asm__ volatile("ud2");                            /* opcode */
        break;
    case 3:
        __asm__ volatile("int $0x80");                      /* int */
        break;
    case 4:
        outb(TIMER_PORT, 0);                                /* port: the executive's */
        break;
    default:
        __asm__ volatile("hlt");                            /* privileged */
    }
}

static ENTRY void *faulty(void *way) {
    for (int turn = 0; turn < TURNS; turn++) {
        pthread_wait_np();
    }
    fail((unsigned)way);
    rtl_print("not reached", 11);
    return NULL;
}

static ENTRY void *steady(void *argument) {
    (void)argument;
    for (;;) {
        rtl_print("on", 2);
        pthread_wait_np();
    }
    return NULL;
}

/* Divides by the line's number less itself. */
static ENTRY unsigned on_six(unsigned irq, struct pt_regs *regs) {
    (void)regs;
    zero = 100 / (zero + (int)irq - LINE_SIX);
    return 0;
}

int init_module(void) {
    pthread_t thread;
    for (unsigned way = 0; way < WAYS; way++) {
        pthread_create(&thread, WITH(stacks[way], PRIORITY), faulty, (void *)way);
        pthread_make_periodic_np(thread, START + BETWEEN * way, PERIOD);
    }
    pthread_create(&thread, WITH(steady_stack, STEADY_PRIORITY), steady, NULL);
    pthread_make_periodic_np(thread, STEADY_PERIOD, STEADY_PERIOD);
    return rtl_request_irq(LINE_SIX, on_six);
}
