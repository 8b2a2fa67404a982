/* Five periodic threads, the more urgent the shorter their period, all released together in tick 6,000: from there on each thread's first response is
   its longest. Each has a turn before, a period earlier, in which its function begins. */
#include "module.h"

enum { THREADS_HERE = 5, TOGETHER = 6000 };

static const struct {
    int priority;
    ticks_t period, work;
} set[THREADS_HERE] = {{50, 200, 36}, {40, 350, 56}, {30, 600, 76}, {20, 1000, 116}, {10, 1800, 196}};

static unsigned char stacks[THREADS_HERE][256] __attribute__((aligned(16)));

/* Performs one instruction so many times, a tick each. */
static inline void work(unsigned ticks) {
    __asm__ volatile("0: loop 0b" : "+c"(ticks));
}

static ENTRY void *periodic(void *ticks) {
    for (;;) {
        work((unsigned)ticks);
        pthread_wait_np();
    }
    return NULL;
}

int init_module(void) {
    for (int at = 0; at < THREADS_HERE; at++) {
        pthread_t thread;
        pthread_create(&thread, WITH(stacks[at], set[at].priority), periodic, (void *)set[at].work);
        pthread_make_periodic_np(thread, TOGETHER - set[at].period, set[at].period);
    }
    return 0;
}
