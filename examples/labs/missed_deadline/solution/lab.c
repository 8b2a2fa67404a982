/* Three periodic threads. A turn has to be over before the thread's next due: that is its deadline. */
#include "module.h"

enum { START = 1000 };
enum { SENSOR_PERIOD = 200, SENSOR_WORK = 40 };
enum { CONTROL_PERIOD = 500, CONTROL_WORK = 120 };
enum { LOG_PERIOD = 1000, LOG_WORK = 300 };

/* Rate monotonic: the shorter the period, the more urgent. */
enum { SENSOR_PRIORITY = 30, CONTROL_PRIORITY = 20, LOG_PRIORITY = 10 };

STACK(sensor_stack, 256);
STACK(control_stack, 256);
STACK(log_stack, 256);

/* Performs one instruction so many times, a tick each. */
static inline void work(unsigned ticks) {
    __asm__ volatile("0: loop 0b" : "+c"(ticks));
}

static ENTRY void *periodic(void *ticks) {
    for (;;) {
        work((unsigned)ticks);
        pthread_wait_np();
    }
    return NULL;
}

int init_module(void) {
    pthread_t thread;
    pthread_create(&thread, WITH(sensor_stack, SENSOR_PRIORITY), periodic, (void *)SENSOR_WORK);
    pthread_make_periodic_np(thread, START, SENSOR_PERIOD);
    pthread_create(&thread, WITH(control_stack, CONTROL_PRIORITY), periodic, (void *)CONTROL_WORK);
    pthread_make_periodic_np(thread, START, CONTROL_PERIOD);
    pthread_create(&thread, WITH(log_stack, LOG_PRIORITY), periodic, (void *)LOG_WORK);
    return -pthread_make_periodic_np(thread, START, LOG_PERIOD);
}
