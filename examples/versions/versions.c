/* Two periodic threads of equal priority. The first turn of the sampler takes longer than two of its periods, so it is late when the reporter is
   due; which of the two goes first then is what the version of the system file says. */
#include "module.h"

enum { SAMPLER_START = 200, SAMPLER_PERIOD = 100, FIRST_WORK = 220, SAMPLER_WORK = 20 };
enum { REPORTER_START = 350, REPORTER_PERIOD = 400, REPORTER_WORK = 60 };
enum { PRIORITY = 10 };

STACK(sampler_stack, 256);
STACK(reporter_stack, 256);

/* Performs one instruction so many times, a tick each. */
static inline void work(unsigned ticks) {
    __asm__ volatile("0: loop 0b" : "+c"(ticks));
}

static ENTRY void *sampler(void *first) {
    for (unsigned ticks = (unsigned)first;;) {
        work(ticks);
        ticks = SAMPLER_WORK;
        pthread_wait_np();
    }
    return NULL;
}

static ENTRY void *reporter(void *ticks) {
    for (;;) {
        work((unsigned)ticks);
        pthread_wait_np();
    }
    return NULL;
}

int init_module(void) {
    pthread_t sampling, reporting;
    pthread_create(&sampling, WITH(sampler_stack, PRIORITY), sampler, (void *)FIRST_WORK);
    pthread_create(&reporting, WITH(reporter_stack, PRIORITY), reporter, (void *)REPORTER_WORK);
    pthread_make_periodic_np(sampling, SAMPLER_START, SAMPLER_PERIOD);
    return -pthread_make_periodic_np(reporting, REPORTER_START, REPORTER_PERIOD);
}
