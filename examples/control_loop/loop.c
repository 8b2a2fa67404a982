/* A control loop: a thread takes a turn each 500 ticks and tells the guest what it has done; the guest sends set points, and line 9 says that the
   plant's load comes or goes. */
#include "control.h"
#include "module.h"

enum { LOAD_LINE = 9, PRIORITY = 10, RECORDS_SIZE = 16 * sizeof(struct record), SET_POINTS_SIZE = 16 };

STACK(controller_stack, 512);

static struct loop loop;

/* Where the guest doesn't take the records, those that don't fit are lost, and the loop goes on. */
static ENTRY void *controller(void *argument) {
    (void)argument;
    for (;;) {
        struct record record;
        take_turn(&loop, &record);
        rtf_put(RECORDS, &record, sizeof record);
        pthread_wait_np();
    }
    return NULL;
}

/* The guest has put something: the last of the set points counts. */
static ENTRY int on_set_point(unsigned fifo) {
    int set_point;
    while (rtf_get(fifo, &set_point, sizeof set_point) == sizeof set_point) {
        loop.set_point = set_point;
    }
    return 0;
}

static ENTRY unsigned on_load(unsigned irq, struct pt_regs *regs) {
    (void)irq;
    (void)regs;
    change_load(&loop);
    return 0;
}

int init_module(void) {
    rtf_create(RECORDS, RECORDS_SIZE);
    rtf_create(SET_POINTS, SET_POINTS_SIZE);
    rtf_create_handler(SET_POINTS, on_set_point);
    rtl_request_irq(LOAD_LINE, on_load);
    pthread_t thread;
    pthread_create(&thread, WITH(controller_stack, PRIORITY), controller, NULL);
    return -pthread_make_periodic_np(thread, FIRST_TURN, TURN);
}
