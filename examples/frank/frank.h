/* What the module and the kernel say to each other. */
#ifndef FRANK_H
#define FRANK_H

enum { TASKS = 2, CONTROL = TASKS, CONTROL_SIZE = 64, TEXT_SIZE = 64 };      /* FIFO n has the text of task n */

enum { START_TASK = 1, STOP_TASK = 2 };

struct command {
    int command, task, period;      /* ticks */
};

#endif
