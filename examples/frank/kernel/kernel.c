/* A kernel that starts and stops the threads, and sends each 1,000 ticks what they have put into their FIFOs. */
#include "../frank.h"
#include "guest.h"
#include "serial.h"

enum { LOG = 1000, LOGS = 9, COMMANDS = 6 };

/* The commands, each behind so many logs. */
static const struct {
    int logs;
    struct command command;
} plan[COMMANDS] = {
    {0, {START_TASK, 0, 500}}, {0, {START_TASK, 1, 200}}, {3, {STOP_TASK, 0, 0}}, {5, {START_TASK, 0, 300}},
    {7, {STOP_TASK, 0, 0}}, {7, {STOP_TASK, 1, 0}},
};

static volatile int dues_seen;

static void on_timer(struct frame *frame) {
    (void)frame;
    dues_seen++;
}

static void wait_for(int count) {
    cli();
    while (dues_seen < count) {
        sti_and_hlt();
        cli();
    }
    sti();
}

static void send(char letter) {
    while (!(inb(LSR) & LSR_BUFFER_EMPTY)) {
    }
    outb(THR, (unsigned char)letter);
}

static void command_behind(int logs) {
    for (int at = 0; at < COMMANDS; at++) {
        if (plan[at].logs == logs) {
            fifo_put(CONTROL, &plan[at].command, sizeof plan[at].command);
        }
    }
}

static void log_texts(void) {
    for (unsigned task = 0; task < TASKS; task++) {
        char text[TEXT_SIZE];
        int count = fifo_get(task, text, sizeof text);
        for (int at = 0; at < count; at++) {
            send(text[at]);
        }
    }
    send('\n');
}

int main(void) {
    set_handler(VECTOR_OF_LINE(LINE_TIMER), on_timer, INTERRUPT_GATE);
    if (load_handlers() != 0) {
        return -1;
    }
    set_mask(~(1u << LINE_TIMER));
    set_timer(LOG);
    command_behind(0);
    for (int logs = 1; logs <= LOGS; logs++) {
        wait_for(logs);
        command_behind(logs);
        log_texts();
    }
    cli();
    return 0;
}
