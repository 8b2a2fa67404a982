/* A regulator whose sensor and actuator are on COM2. The sensor's byte comes with line 3, whose handler keeps it; a thread answers it with the
   actuator's byte once a period. */
#include "com2.h"
#include "module.h"
#include "regulator.h"

enum { FIRST = 400, PERIOD = 400, PRIORITY = 50 };

STACK(regulator_stack, 512);

static volatile unsigned char measured;

static ENTRY unsigned on_sensor(unsigned irq, struct pt_regs *regs) {
    (void)irq;
    (void)regs;
    while (com2_received()) {
        measured = com2_get();
    }
    return 0;
}

static ENTRY void *regulator_thread(void *argument) {
    (void)argument;
    struct regulator regulator = {0};
    for (;;) {
        com2_send(regulate(&regulator, measured));
        pthread_wait_np();
    }
    return NULL;
}

int init_module(void) {
    rtl_request_irq(LINE_COM2, on_sensor);
    com2_interrupts(IER_RECEIVED);
    pthread_t thread;
    pthread_create(&thread, WITH(regulator_stack, PRIORITY), regulator_thread, NULL);
    return -pthread_make_periodic_np(thread, FIRST, PERIOD);
}
