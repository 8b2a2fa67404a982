/* Three tasks with a stack each, which take turns at each rise of line 8, a clock, and by INT 80h, with which a task gives way, sends a
   byte, asks the time and ends. */
#include "guest.h"
#include "serial.h"
#include "switching.h"

enum { LINE_CLOCK = 8, SYSTEM_CALL = 0x80, ENTRIES = SYSTEM_CALL + 1 };
enum { CALL_GIVE_WAY, CALL_SEND, CALL_CLOCK, CALL_END };
enum { NO_SUCH_CALL = -38 };

/* Of entries.S. */
void clock_entry(void);
void call_entry(void);
unsigned on_clock(unsigned esp);
unsigned on_call(unsigned esp);

enum { TASKS = 3, STACK_SIZE = 512, NOBODY = -1 };

struct task {
    unsigned esp;               /* while it waits */
    int is_alive;
    unsigned turns;
    unsigned char stack[STACK_SIZE];
};

static struct descriptor table[ENTRIES];
static struct task tasks[TASKS];
static int current = NOBODY;
static unsigned main_esp;
static volatile unsigned clock;

/* The ESP of the next task in turn; where none is alive, main goes on. */
static unsigned next_task(void) {
    for (int i = 1; i <= TASKS; i++) {
        int next = (current + i) % TASKS;
        if (tasks[next].is_alive) {
            current = next;
            tasks[next].turns++;
            return tasks[next].esp;
        }
    }
    current = NOBODY;
    return main_esp;
}

static unsigned give_way(unsigned esp) {
    tasks[current].esp = esp;
    return next_task();
}

unsigned on_clock(unsigned esp) {
    clock++;
    return current == NOBODY ? esp : give_way(esp);
}

/* The handler runs with the flag clear, so a rise of the clock waits until it has returned. */
static void send(unsigned char byte) {
    while (!(inb(LSR) & LSR_BUFFER_EMPTY)) {
    }
    outb(THR, byte);
}

/* A call's number is in EAX and its argument in EBX; its result goes to EAX. */
unsigned on_call(unsigned esp) {
    struct waiting *caller = (struct waiting *)esp;
    switch (caller->eax) {
    case CALL_GIVE_WAY:
        return give_way(esp);
    case CALL_SEND:
        send((unsigned char)caller->ebx);
        return esp;
    case CALL_CLOCK:
        caller->eax = clock;
        return esp;
    case CALL_END:
        tasks[current].is_alive = 0;
        return next_task();
    default:
        caller->eax = (unsigned)NO_SUCH_CALL;
        return esp;
    }
}

static unsigned call(unsigned number, unsigned argument) {
    unsigned result;
    __asm__ volatile("int %1" : "=a"(result) : "i"(SYSTEM_CALL), "0"(number), "b"(argument) : "memory");
    return result;
}

static void work(unsigned rounds) {
    for (volatile unsigned i = 0; i < rounds; i++) {
    }
}

/* Works between its bytes, so the clock interrupts it. */
static void worker(void) {
    for (int i = 0; i < 5; i++) {
        call(CALL_SEND, 'w');
        work(40);
    }
    call(CALL_END, 0);
}

/* Gives way behind each of its bytes. */
static void polite(void) {
    for (int i = 0; i < 5; i++) {
        call(CALL_SEND, 'p');
        call(CALL_GIVE_WAY, 0);
    }
    call(CALL_END, 0);
}

/* Waits for the tenth rise of the clock. */
static void waiter(void) {
    while (call(CALL_CLOCK, 0) < 10) {
        work(10);
    }
    call(CALL_SEND, 't');
    call(CALL_END, 0);
}

static void make_task(struct task *task, void (*entry)(void)) {
    task->esp = new_stack(task->stack + STACK_SIZE, entry);
    task->is_alive = 1;
}

/* The answer: how many turns each task had. */
int main(void) {
    set_descriptor(&table[VECTOR_OF_LINE(LINE_CLOCK)], clock_entry, INTERRUPT_GATE);
    set_descriptor(&table[SYSTEM_CALL], call_entry, INTERRUPT_GATE);
    if (load_idt(table, ENTRIES) != 0) {
        return -1;
    }
    make_task(&tasks[0], worker);
    make_task(&tasks[1], polite);
    make_task(&tasks[2], waiter);
    set_mask(~(1u << LINE_CLOCK));
    switch_stack(next_task(), &main_esp);
    return (int)(tasks[0].turns << 16 | tasks[1].turns << 8 | tasks[2].turns);
}
