/* Five threads. Three are periodic, the more urgent the shorter their period; one sleeps between its turns; and one gets stuck in its
   third turn, in a loop that nothing ends, until the slowest of the three, which looks after it, deletes it. */
#include "module.h"

enum { START = 1000 };                                      /* the tick of the first releases */

enum { FAST_PERIOD = 400, FAST_WORK = 20 };
enum { MIDDLE_PERIOD = 800, MIDDLE_WORK = 100 };
enum { SLOW_PERIOD = 1600, SLOW_WORK = 800 };
enum { SLEEP = 700, SLEEPS = 3 };
enum { STUCK_START = 1300, STUCK_PERIOD = 600 };

/* Greater is more urgent. */
enum { FAST_PRIORITY = 40, SLEEPER_PRIORITY = 35, MIDDLE_PRIORITY = 30, SLOW_PRIORITY = 20, STUCK_PRIORITY = 10 };

STACK(fast_stack, 256);
STACK(middle_stack, 256);
STACK(slow_stack, 256);
STACK(sleeper_stack, 256);
STACK(stuck_stack, 256);

static volatile unsigned beats;                             /* turns that the stuck thread has finished */
static volatile unsigned answer;                            /* what it waits for in vain */

static const char awake_text[] = "awake";
static const char stuck_text[] = "stuck";

/* Performs one instruction so many times, a tick each. */
static inline void work(unsigned ticks) {
    __asm__ volatile("0: loop 0b" : "+c"(ticks));
}

static ENTRY void *periodic(void *ticks) {
    for (;;) {
        work((unsigned)ticks);
        pthread_wait_np();
    }
    return NULL;
}

/* Works, and looks in each turn but the first whether the watched thread has finished a turn since the last one. */
static ENTRY void *slow(void *watched) {
    int watching = 1;
    unsigned seen = beats - 1;
    for (;;) {
        work(SLOW_WORK);
        if (watching && beats == seen) {
            pthread_delete_np((pthread_t)watched);
            rtl_print(stuck_text, sizeof stuck_text - 1);
            watching = 0;
        }
        seen = beats;
        pthread_wait_np();
    }
    return NULL;
}

/* Its return deletes it. */
static ENTRY void *sleeper(void *sleeps) {
    for (unsigned left = (unsigned)sleeps; left-- > 0;) {
        nanosleep(&(struct timespec){SLEEP}, NULL);
        rtl_print(awake_text, sizeof awake_text - 1);
    }
    return NULL;
}

static ENTRY void *stuck(void *good_turns) {
    for (unsigned good = (unsigned)good_turns;;) {
        if (good-- == 0) {
            while (answer == 0) {
            }
        }
        beats++;
        pthread_wait_np();
    }
    return NULL;
}

int init_module(void) {
    pthread_t fast_thread, middle_thread, stuck_thread, slow_thread, sleeper_thread;
    pthread_create(&fast_thread, WITH(fast_stack, FAST_PRIORITY), periodic, (void *)FAST_WORK);
    pthread_create(&middle_thread, WITH(middle_stack, MIDDLE_PRIORITY), periodic, (void *)MIDDLE_WORK);
    pthread_create(&stuck_thread, WITH(stuck_stack, STUCK_PRIORITY), stuck, (void *)2);
    pthread_create(&slow_thread, WITH(slow_stack, SLOW_PRIORITY), slow, (void *)stuck_thread);
    pthread_create(&sleeper_thread, WITH(sleeper_stack, SLEEPER_PRIORITY), sleeper, (void *)SLEEPS);
    pthread_make_periodic_np(fast_thread, START, FAST_PERIOD);
    pthread_make_periodic_np(middle_thread, START, MIDDLE_PERIOD);
    pthread_make_periodic_np(slow_thread, START, SLOW_PERIOD);
    return -pthread_make_periodic_np(stuck_thread, STUCK_START, STUCK_PERIOD);
}
