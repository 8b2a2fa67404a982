/* A thread that puts a record into a FIFO in each turn, all of it by one put: the guest gets it whole or not yet. */
#include "../record.h"
#include "module.h"

enum { START = 500, PERIOD = 300, PRIORITY = 20, SETTLES = 60 };

STACK(thread_stack, 256);

static ENTRY void *measuring(void *argument) {
    (void)argument;
    for (unsigned turn = 0;; turn++) {
        struct record record = {.turn = turn};
        nanosleep(&(struct timespec){SETTLES}, NULL);
        record.square = turn * turn;
        rtf_put(RECORDS, &record, sizeof record);
        pthread_wait_np();
    }
    return NULL;
}

int init_module(void) {
    rtf_create(RECORDS, RECORDS_SIZE);
    pthread_t thread;
    pthread_create(&thread, WITH(thread_stack, PRIORITY), measuring, NULL);
    return -pthread_make_periodic_np(thread, START, PERIOD);
}
