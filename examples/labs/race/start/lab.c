/* A thread that puts a record into a FIFO in each turn. Its second word is a measurement, which takes a while. */
#include "../record.h"
#include "module.h"

enum { START = 500, PERIOD = 300, PRIORITY = 20, SETTLES = 60 };

STACK(thread_stack, 256);

static ENTRY void *measuring(void *argument) {
    (void)argument;
    for (unsigned turn = 0;; turn++) {
        rtf_put(RECORDS, &turn, sizeof turn);
        nanosleep(&(struct timespec){SETTLES}, NULL);
        unsigned square = turn * turn;
        rtf_put(RECORDS, &square, sizeof square);
        pthread_wait_np();
    }
    return NULL;
}

int init_module(void) {
    rtf_create(RECORDS, RECORDS_SIZE);
    pthread_t thread;
    pthread_create(&thread, WITH(thread_stack, PRIORITY), measuring, NULL);
    return -pthread_make_periodic_np(thread, START, PERIOD);
}
