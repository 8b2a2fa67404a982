/* Two threads, each of which puts its letter into a FIFO of its own once a period. The guest starts and stops them by commands in a third FIFO, whose
   handler does it. */
#include "frank.h"
#include "module.h"

enum { PRIORITY = 20 };

STACK(first_stack, 256);
STACK(second_stack, 256);

static pthread_t tasks[TASKS];
static const char letters[TASKS] = {'f', 'z'};

static ENTRY void *task(void *argument) {
    unsigned number = (unsigned)argument;
    for (;;) {
        rtf_put(number, &letters[number], 1);
        pthread_wait_np();
    }
    return NULL;
}

static void obey(const struct command *command) {
    if ((unsigned)command->task >= TASKS) {
        return;
    }
    pthread_t thread = tasks[command->task];
    if (command->command == START_TASK) {
        hrtime_t now = gethrtime();
        pthread_make_periodic_np(thread, now + (hrtime_t)command->period, (hrtime_t)command->period);
    } else if (command->command == STOP_TASK) {
        pthread_suspend_np(thread);
    }
}

static ENTRY int on_control(unsigned fifo) {
    struct command command;
    while (rtf_get(fifo, &command, sizeof command) == sizeof command) {
        obey(&command);
    }
    return 0;
}

/* A thread that is created is ready. Each is suspended before it has run, until the guest starts it. */
int init_module(void) {
    for (unsigned number = 0; number < TASKS; number++) {
        rtf_create(number, TEXT_SIZE);
    }
    rtf_create(CONTROL, CONTROL_SIZE);
    rtf_create_handler(CONTROL, on_control);
    pthread_create(&tasks[0], WITH(first_stack, PRIORITY), task, (void *)0);
    pthread_create(&tasks[1], WITH(second_stack, PRIORITY), task, (void *)1);
    pthread_suspend_np(tasks[0]);
    return -pthread_suspend_np(tasks[1]);
}
