/* Three threads, each of which prints a small letter, works, and prints the same letter as a capital. */
#include "module.h"

enum { PERIOD = 2000 };
enum { LONG_START = 500, MIDDLE_START = 600, SHORT_START = 650 };
enum { LONG_WORK = 300, MIDDLE_WORK = 100, SHORT_WORK = 20 };

/* To be chosen: 0 to 255, the greater number first. */
enum { LONG_PRIORITY = 10, MIDDLE_PRIORITY = 10, SHORT_PRIORITY = 10 };

STACK(long_stack, 256);
STACK(middle_stack, 256);
STACK(short_stack, 256);

struct task {
    unsigned work;
    char begins, ends;
};

static const struct task long_task = {LONG_WORK, 'l', 'L'};
static const struct task middle_task = {MIDDLE_WORK, 'm', 'M'};
static const struct task short_task = {SHORT_WORK, 's', 'S'};

/* Performs one instruction so many times, a tick each. */
static inline void work(unsigned ticks) {
    __asm__ volatile("0: loop 0b" : "+c"(ticks));
}

static ENTRY void *periodic(void *argument) {
    const struct task *task = argument;
    for (;;) {
        rtl_print(&task->begins, 1);
        work(task->work);
        rtl_print(&task->ends, 1);
        pthread_wait_np();
    }
    return NULL;
}

int init_module(void) {
    pthread_t thread;
    pthread_create(&thread, WITH(long_stack, LONG_PRIORITY), periodic, (void *)&long_task);
    pthread_make_periodic_np(thread, LONG_START, PERIOD);
    pthread_create(&thread, WITH(middle_stack, MIDDLE_PRIORITY), periodic, (void *)&middle_task);
    pthread_make_periodic_np(thread, MIDDLE_START, PERIOD);
    pthread_create(&thread, WITH(short_stack, SHORT_PRIORITY), periodic, (void *)&short_task);
    return -pthread_make_periodic_np(thread, SHORT_START, PERIOD);
}
