/* Three tasks that take turns by the clock. */
#include "guest.h"
#include "serial.h"
#include "switching.h"

enum { TASKS = 3, STACK_SIZE = 512, SLICE = 300, WORK = 4 };

/* Of entries.S: it pushes all registers, calls on_clock with ESP, and goes on with the ESP that on_clock answers. */
void clock_entry(void);
unsigned on_clock(unsigned esp);

static struct descriptor table[VECTOR_OF_LINE(LINE_TIMER) + 1];
static unsigned char stacks[TASKS][STACK_SIZE];
static unsigned waiting[TASKS];                 /* the ESP of each task that waits */
static unsigned main_esp;

static int current;

unsigned on_clock(unsigned esp) {
    waiting[current] = esp;
    current = (current + 1) % TASKS;
    return waiting[current];
}

static void send(char letter) {
    while (!(inb(LSR) & LSR_BUFFER_EMPTY)) {
    }
    outb(THR, (unsigned char)letter);
}

static void send_for_ever(char letter) {
    for (;;) {
        cli();                                  /* another task might come between the look and the write */
        send(letter);
        sti();
        for (volatile int at = 0; at < WORK; at++) {
        }
    }
}

static void task_a(void) {
    send_for_ever('a');
}

static void task_b(void) {
    send_for_ever('b');
}

static void task_c(void) {
    send_for_ever('c');
}

int main(void) {
    set_descriptor(&table[VECTOR_OF_LINE(LINE_TIMER)], clock_entry, INTERRUPT_GATE);
    if (load_idt(table, VECTOR_OF_LINE(LINE_TIMER) + 1) != 0) {
        return -1;
    }
    waiting[0] = new_stack(stacks[0] + STACK_SIZE, task_a);
    waiting[1] = new_stack(stacks[1] + STACK_SIZE, task_b);
    waiting[2] = new_stack(stacks[2] + STACK_SIZE, task_c);
    set_mask(~(1u << LINE_TIMER));
    set_timer(SLICE);
    switch_stack(waiting[0], &main_esp);
    return 0;
}
