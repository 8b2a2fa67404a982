/* Lines that come with the flag clear, the shadow behind sti, and a halt that a line ends. The script says when lines rise. */
#include "guest.h"

enum { LINE_FIVE = 5, LINE_NINE = 9 };

static volatile unsigned fives;
static volatile unsigned nines;
static volatile unsigned steps_at_entry;

/* EBX is the count of steps behind sti at the first entry. */
static void on_five(struct frame *frame) {
    if (fives == 0) {
        steps_at_entry = frame->ebx;
    }
    fives++;
}

static void on_nine(struct frame *frame) {
    (void)frame;
    nines++;
}

/* Sets the flag and counts three steps, one instruction each. */
static void sti_and_steps(void) {
    unsigned steps = 0;
    __asm__ volatile("int %1\n\tincl %0\n\tincl %0\n\tincl %0" : "+b"(steps) : "i"(GATE_STI) : "memory", "cc");
}

static void wait_until(unsigned tick) {
    while (time() < tick) {
    }
}

/* The answer: how many steps passed in the shadow, how often line 5 was entered, how often line 9. */
int main(void) {
    set_handler(VECTOR_OF_LINE(LINE_FIVE), on_five, INTERRUPT_GATE);
    set_handler(VECTOR_OF_LINE(LINE_NINE), on_nine, INTERRUPT_GATE);
    if (load_handlers() != 0) {
        return -1;
    }
    set_mask(~(1u << LINE_FIVE | 1u << LINE_NINE));

    /* Line 9, then line 5 twice, while the flag is clear. */
    wait_until(500);
    sti_and_steps();

    /* Line 9 while the flag is clear, and then a halt: the line ends it at once. */
    cli();
    wait_until(800);
    sti_and_hlt();

    /* Halts until line 5 was entered three times in all. Between the test and the halt no line is lost. */
    cli();
    while (fives < 3) {
        sti_and_hlt();
        cli();
    }
    return (int)(steps_at_entry << 16 | fives << 8 | nines);
}
